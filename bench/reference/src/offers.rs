//! Offers, and the blocks that are made of them.

/// How many grades a block can offer.
pub const GRADES: usize = 16;

const MAX_RATE: u32 = 65_535;
const MAX_DISTORTION: u32 = 16_777_215;

/// The levels of a sample, by grade.
const LEVELS: [u32; GRADES] = [1, 2, 3, 4, 6, 8, 12, 16, 24, 32, 48, 64, 96, 128, 192, 255];

/// What one grade of a block brings.
#[derive(Clone, Copy, Debug, PartialEq, Eq)]
pub struct Offer {
    pub rate: u32,
    pub distortion: u32,
}

impl Offer {
    /// None where one of the numbers is out of range.
    pub fn new(rate: u32, distortion: u32) -> Option<Offer> {
        (rate <= MAX_RATE && distortion <= MAX_DISTORTION).then_some(Offer { rate, distortion })
    }
}

/// The offers of a block, by grade.
pub type Block = [Option<Offer>; GRADES];

pub const NO_OFFERS: Block = [None; GRADES];

/// The least q for which 2 to the q is at least `levels` to the 8th.
pub fn eighths(levels: u32) -> u32 {
    u128::from(levels)
        .pow(8)
        .next_power_of_two()
        .trailing_zeros()
}

/// The block of so many samples (1 to 256) and this gain (1 to 255).
pub fn gain_block(samples: u32, gain: u32) -> Block {
    LEVELS.map(|levels| {
        let rate = (samples * eighths(levels)).div_ceil(8);
        let profile = 65_536 / (levels * levels);
        Offer::new(rate, gain * profile)
    })
}

/// The block with its distortions multiplied; an offer that leaves its range
/// is lost.
pub fn weight_over(weight: u32, block: &Block) -> Block {
    block.map(|offer| {
        let offer = offer?;
        Offer::new(offer.rate, offer.distortion.checked_mul(weight)?)
    })
}

/// The block with bits added to its rates; an offer that leaves its range is
/// lost.
pub fn extra_over(extra: u32, block: &Block) -> Block {
    block.map(|offer| {
        let offer = offer?;
        Offer::new(offer.rate.checked_add(extra)?, offer.distortion)
    })
}
