use crate::{raw, Ray, Vec3};

/// A box along the axes.
#[derive(Clone, Copy, Debug, PartialEq)]
pub struct Aabb {
    /// Its lesser corner.
    pub min: Vec3,
    /// Its greater corner.
    pub max: Vec3,
}

impl Aabb {
    /// The empty box: each min is +inf, each max -inf.
    #[must_use]
    pub const fn empty() -> Self {
        let (most, least) = (f64::INFINITY, f64::NEG_INFINITY);
        Self {
            min: Vec3::new(most, most, most),
            max: Vec3::new(least, least, least),
        }
    }

    /// As it is lent: min x, y, z, max x, y, z.
    #[must_use]
    pub fn numbers(&self) -> [f64; 6] {
        let (a, b) = (self.min, self.max);
        [a.x, a.y, a.z, b.x, b.y, b.z]
    }

    /// Where the ray enters and leaves, if it passes this box.
    ///
    /// ```
    /// use pigeonmast::{Aabb, Ray, Vec3};
    /// let unit = Aabb { min: Vec3::new(0.0, 0.0, 0.0), max: Vec3::new(1.0, 1.0, 1.0) };
    /// let ray = Ray::new(Vec3::new(0.5, 0.5, 2.0), Vec3::new(0.0, 0.0, -1.0));
    /// assert_eq!(unit.intersect_ray(&ray), Some((1.0, 2.0)));
    /// ```
    #[must_use]
    pub fn intersect_ray(&self, ray: &Ray) -> Option<(f64, f64)> {
        ray_aabb_slab_test(ray, self)
    }
}

/// The slab test. It answers on every number.
#[must_use]
pub fn ray_aabb_slab_test(ray: &Ray, aabb: &Aabb) -> Option<(f64, f64)> {
    let mut times = [0.0; 2];
    match raw::slab(&aabb.numbers(), &ray.numbers(), &mut times) {
        0 => None,
        _ => Some((times[0], times[1])),
    }
}
