//! Refusals: their numbers and layers.

/// The part of the product that refuses.
#[derive(Clone, Copy, Debug, PartialEq, Eq)]
pub enum Layer {
    Text,
    Terms,
    Block,
    Planner,
}

impl Layer {
    pub fn name(self) -> &'static str {
        match self {
            Layer::Text => "text",
            Layer::Terms => "terms",
            Layer::Block => "block",
            Layer::Planner => "planner",
        }
    }
}

/// A case of refusal. 26, 34 and 40 are not among them: here a block is made
/// whole, a plan brings its own list of grades, and the output grows.
#[derive(Clone, Copy, Debug, PartialEq, Eq)]
pub enum Fault {
    Form = 1,
    FieldCount = 2,
    Letter = 3,
    OutOfPlace = 4,
    TextTooLong = 5,
    Grades = 10,
    Ceiling = 11,
    Charge = 12,
    Pair = 13,
    Rate = 20,
    Distortion = 21,
    Samples = 22,
    Gain = 23,
    Weight = 24,
    Extra = 25,
    TooManyBlocks = 30,
    TooFewPlaces = 31,
    NoBlock = 32,
    Budget = 33,
    NothingFits = 35,
    NoneWithin = 36,
}

impl Fault {
    pub fn number(self) -> u32 {
        self as u32
    }

    pub fn layer(self) -> Layer {
        match self.number() {
            1..=9 => Layer::Text,
            10..=19 => Layer::Terms,
            20..=29 => Layer::Block,
            _ => Layer::Planner,
        }
    }
}
