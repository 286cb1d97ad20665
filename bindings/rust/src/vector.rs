use std::slice;

/// A point or a direction.
#[derive(Clone, Copy, Debug, Default, PartialEq)]
#[repr(C)]
pub struct Vec3 {
    /// Along x.
    pub x: f64,
    /// Along y.
    pub y: f64,
    /// Along z.
    pub z: f64,
}

impl Vec3 {
    /// From its three numbers.
    #[must_use]
    pub const fn new(x: f64, y: f64, z: f64) -> Self {
        Self { x, y, z }
    }
}

impl From<[f64; 3]> for Vec3 {
    fn from([x, y, z]: [f64; 3]) -> Self {
        Self { x, y, z }
    }
}

impl From<Vec3> for [f64; 3] {
    fn from(v: Vec3) -> Self {
        [v.x, v.y, v.z]
    }
}

/// A ray. Its direction is taken as given: any length, zero too.
///
/// In memory it is the six numbers of [`Ray::numbers`], so that many can be lent
/// where they stand.
#[derive(Clone, Copy, Debug, PartialEq)]
#[repr(C)]
pub struct Ray {
    /// Where it starts. Admitted for a walk up to 2^40 along each axis.
    pub origin: Vec3,
    /// Where it goes. Admitted for a walk up to 2 along each axis.
    pub direction: Vec3,
}

impl Ray {
    /// From origin and direction.
    #[must_use]
    pub const fn new(origin: Vec3, direction: Vec3) -> Self {
        Self { origin, direction }
    }

    /// As it is lent: origin, direction.
    #[must_use]
    pub fn numbers(&self) -> [f64; 6] {
        let (o, d) = (self.origin, self.direction);
        [o.x, o.y, o.z, d.x, d.y, d.z]
    }

    /// Many as they are lent, six numbers each, where they stand.
    #[must_use]
    pub fn all_numbers(rays: &[Self]) -> &[f64] {
        const { assert!(size_of::<Self>() == size_of::<[f64; 6]>()) };
        // SAFETY: with `repr(C)` a ray is its six f64 in the order of its fields,
        // without padding and aligned as one of them; so the slice's memory is
        // that of 6 * len f64, and it is borrowed as long.
        unsafe { slice::from_raw_parts(rays.as_ptr().cast(), 6 * rays.len()) }
    }
}

impl From<[f64; 6]> for Ray {
    fn from([ox, oy, oz, dx, dy, dz]: [f64; 6]) -> Self {
        Self::new(Vec3::new(ox, oy, oz), Vec3::new(dx, dy, dz))
    }
}

impl From<Ray> for [f64; 6] {
    fn from(ray: Ray) -> Self {
        ray.numbers()
    }
}
