//! Cost kinds. A kind is the type of its values, and ranks them by their
//! order.

pub trait Kind: Copy + Ord {
    /// The cost of no block.
    const START: Self;

    /// The cost with one more block of this distortion.
    fn join(self, distortion: u32) -> Self;

    /// The cost that a bound in a job text stands for.
    fn from_number(number: u32) -> Self;

    /// The number that an answer line shows for this cost.
    fn number(self) -> u32;
}

/// The sum of the distortions, which stops at the greatest `u32`.
#[derive(Clone, Copy, Debug, PartialEq, Eq, PartialOrd, Ord)]
pub struct Total(pub u32);

impl Kind for Total {
    const START: Self = Total(0);

    fn join(self, distortion: u32) -> Self {
        Total(self.0.saturating_add(distortion))
    }

    fn from_number(number: u32) -> Self {
        Total(number)
    }

    fn number(self) -> u32 {
        self.0
    }
}

/// The greatest of the distortions.
#[derive(Clone, Copy, Debug, PartialEq, Eq, PartialOrd, Ord)]
pub struct Worst(pub u32);

impl Kind for Worst {
    const START: Self = Worst(0);

    fn join(self, distortion: u32) -> Self {
        Worst(self.0.max(distortion))
    }

    fn from_number(number: u32) -> Self {
        Worst(number)
    }

    fn number(self) -> u32 {
        self.0
    }
}
