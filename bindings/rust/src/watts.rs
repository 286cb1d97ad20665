use std::fmt;
use std::iter::Sum;
use std::ops::{Add, AddAssign};

use crate::{raw, Place, Refusal};

/// What a sky of weighed rays tells: its watts, and each ray's place.
#[derive(Clone, Debug, PartialEq)]
#[non_exhaustive]
pub struct Watts {
    /// The watts, by how the rays ended.
    pub report: Report,
    /// Place k is ray k's, as [`crate::Bvh::sky`] has it.
    pub places: Vec<Result<Place, Refusal>>,
}

/// Whole watts of many rays, by how they ended. Shaded, open and refused are
/// total together. Reports add: those of parts give that of the whole, its share
/// too, in whatever parts the rays were surveyed.
///
/// ```
/// use pigeonmast::Report;
/// let part = |shaded, open| Report { shaded, open, refused: 5, total: shaded + open + 5 };
/// let whole: Report = [part(200, 0), part(100, 200)].into_iter().sum();
/// assert_eq!(whole.share(), Some((3, 5)));
/// let table = "\
/// shaded  300 W
/// open    200 W
/// refused  10 W
/// total   510 W
/// share   3/5 of the answered";
/// assert_eq!(whole.to_string(), table);
/// ```
#[derive(Clone, Copy, Debug, Default, PartialEq, Eq, Hash)]
pub struct Report {
    /// Of the rays that hit.
    pub shaded: u64,
    /// Of the rays that miss.
    pub open: u64,
    /// Of the rays that were refused.
    pub refused: u64,
    /// Of all rays.
    pub total: u64,
}

impl Report {
    /// Shaded over shaded and open together, in lowest terms: above and below.
    /// (0, 1) where both are 0; none where the lower number would pass 64 bits,
    /// which takes the added figures of over 4,096 calls.
    #[must_use]
    pub fn share(&self) -> Option<(u64, u64)> {
        let mut share = [0; 2];
        raw::share(self.shaded, self.open, &mut share);
        (share[1] != 0).then_some((share[0], share[1]))
    }
}

impl Add for Report {
    type Output = Self;

    /// # Panics
    ///
    /// If a sum passes 64 bits.
    fn add(self, other: Self) -> Self {
        let sum = |a: u64, b| a.checked_add(b).expect("the watts pass 64 bits");
        Self {
            shaded: sum(self.shaded, other.shaded),
            open: sum(self.open, other.open),
            refused: sum(self.refused, other.refused),
            total: sum(self.total, other.total),
        }
    }
}

impl AddAssign for Report {
    fn add_assign(&mut self, other: Self) {
        *self = *self + other;
    }
}

impl Sum for Report {
    fn sum<I: Iterator<Item = Self>>(reports: I) -> Self {
        reports.fold(Self::default(), Add::add)
    }
}

impl fmt::Display for Report {
    fn fmt(&self, f: &mut fmt::Formatter) -> fmt::Result {
        let wide = self.total.to_string().len();
        for (name, watts) in [
            ("shaded", self.shaded),
            ("open", self.open),
            ("refused", self.refused),
            ("total", self.total),
        ] {
            writeln!(f, "{name:7} {watts:wide$} W")?;
        }
        match self.share() {
            Some((above, below)) => write!(f, "share   {above}/{below} of the answered"),
            None => f.write_str("share   beyond 64 bits"),
        }
    }
}
