//! One line of a job text as one instruction, or its fault with the field.

use super::faults::Fault;
use super::offers::{extra_over, gain_block, weight_over, Block, Offer, NO_OFFERS};
use super::terms::{within, Terms};

#[derive(Clone, Copy, Debug, PartialEq, Eq)]
pub enum KindName {
    Total,
    Worst,
}

/// A `J` line.
#[derive(Clone, Debug)]
pub struct Opening {
    pub kind: KindName,
    pub terms: Terms,
}

/// A line of an open job.
#[derive(Clone, Debug, PartialEq, Eq)]
pub enum Instruction {
    Add(Block),
    TakeBack,
    Plan(u32),
    Fewest(u32),
}

/// A fault and the field that it was found in, or field 0.
#[derive(Clone, Copy, Debug, PartialEq, Eq)]
pub struct FieldFault {
    pub field: usize,
    pub fault: Fault,
}

impl FieldFault {
    fn in_first(fault: Fault) -> FieldFault {
        FieldFault { field: 1, fault }
    }
}

/// Faults that belong to no field.
impl From<Fault> for FieldFault {
    fn from(fault: Fault) -> FieldFault {
        FieldFault { field: 0, fault }
    }
}

/// Reads a line where no job is open.
pub fn read_opening(line: &[u8]) -> Result<Opening, FieldFault> {
    if letter(line)? != b'J' {
        return Err(FieldFault::in_first(Fault::OutOfPlace));
    }
    let mut fields = Fields::of(line, 5)?;
    let kind = match fields.next() {
        b"T" => KindName::Total,
        b"W" => KindName::Worst,
        _ => return Err(fields.fault(Fault::Form)),
    };
    let grades = fields.checked(Terms::checked_grades)?;
    let ceiling = fields.checked(Terms::checked_ceiling)?;
    let charge = fields.checked(Terms::checked_charge)?;
    let mut terms = Terms::new(grades, ceiling)?;
    terms.set_flat(charge)?;
    Ok(Opening { kind, terms })
}

/// Reads a line of an open job with these terms.
pub fn read_instruction(line: &[u8], terms: &Terms) -> Result<Instruction, FieldFault> {
    match letter(line)? {
        b'O' => {
            let mut fields = Fields::of(line, 3 + 2 * terms.grades())?;
            let (weight, extra) = fields.layers()?;
            let mut block = NO_OFFERS;
            for offer in &mut block[..terms.grades()] {
                *offer = fields.pair()?;
            }
            Ok(Instruction::Add(layered(weight, extra, &block)))
        }
        b'G' => {
            let mut fields = Fields::of(line, 5)?;
            let (weight, extra) = fields.layers()?;
            let samples = fields.checked(|n| within(n, 1, 256, Fault::Samples))?;
            let gain = fields.checked(|n| within(n, 1, 255, Fault::Gain))?;
            let block = gain_block(samples, gain);
            Ok(Instruction::Add(layered(weight, extra, &block)))
        }
        b'U' => {
            Fields::of(line, 1)?;
            Ok(Instruction::TakeBack)
        }
        b'B' => {
            let mut fields = Fields::of(line, 2)?;
            Ok(Instruction::Plan(fields.number()?))
        }
        b'D' => {
            let mut fields = Fields::of(line, 2)?;
            Ok(Instruction::Fewest(fields.number()?))
        }
        _ => Err(FieldFault::in_first(Fault::OutOfPlace)),
    }
}

fn layered(weight: u32, extra: u32, block: &Block) -> Block {
    weight_over(weight, &extra_over(extra, block))
}

/// The first field, if it is one of the six letters.
fn letter(line: &[u8]) -> Result<u8, FieldFault> {
    match split(line).next() {
        Some(&[letter @ (b'J' | b'O' | b'G' | b'U' | b'B' | b'D')]) => Ok(letter),
        _ => Err(FieldFault::in_first(Fault::Letter)),
    }
}

fn split(line: &[u8]) -> impl Iterator<Item = &[u8]> {
    line.split(|&byte| byte == b',')
}

/// The number that a field writes: 1 to 10 digits, no leading zero but in 0
/// itself, and no more than a `u32` holds.
fn number(field: &[u8]) -> Option<u32> {
    let well_formed = match field {
        [b'0'] => true,
        [b'1'..=b'9', rest @ ..] => rest.len() < 10 && rest.iter().all(u8::is_ascii_digit),
        _ => false,
    };
    if !well_formed {
        return None;
    }
    let value = field
        .iter()
        .fold(0, |value, digit| 10 * value + u64::from(digit - b'0'));
    u32::try_from(value).ok()
}

/// The fields after the letter, taken from the left.
struct Fields<'a> {
    rest: Vec<&'a [u8]>,
    /// The number of the field that was taken last.
    field: usize,
}

impl<'a> Fields<'a> {
    /// Refuses a line that has not this many fields, the letter included.
    fn of(line: &'a [u8], count: usize) -> Result<Fields<'a>, FieldFault> {
        let mut rest: Vec<_> = split(line).collect();
        if rest.len() != count {
            return Err(Fault::FieldCount.into());
        }
        rest.reverse();
        rest.pop();
        Ok(Fields { rest, field: 1 })
    }

    fn next(&mut self) -> &'a [u8] {
        self.field += 1;
        self.rest.pop().expect("the fields were counted")
    }

    /// A fault of the field that was taken last.
    fn fault(&self, fault: Fault) -> FieldFault {
        FieldFault {
            field: self.field,
            fault,
        }
    }

    fn number(&mut self) -> Result<u32, FieldFault> {
        let field = self.next();
        number(field).ok_or(self.fault(Fault::Form))
    }

    fn checked(&mut self, check: impl Fn(u32) -> Result<u32, Fault>) -> Result<u32, FieldFault> {
        let number = self.number()?;
        check(number).map_err(|fault| self.fault(fault))
    }

    /// Weight and extra.
    fn layers(&mut self) -> Result<(u32, u32), FieldFault> {
        let weight = self.checked(|n| within(n, 1, 255, Fault::Weight))?;
        let extra = self.checked(|n| within(n, 0, 1_023, Fault::Extra))?;
        Ok((weight, extra))
    }

    /// Rate and distortion, or two dashes.
    fn pair(&mut self) -> Result<Option<Offer>, FieldFault> {
        if self.rest.last() == Some(&b"-".as_slice()) {
            self.next();
            return match self.next() {
                b"-" => Ok(None),
                _ => Err(self.fault(Fault::Form)),
            };
        }
        let rate = self.checked(|n| within(n, 0, 65_535, Fault::Rate))?;
        let distortion = self.checked(|n| within(n, 0, 16_777_215, Fault::Distortion))?;
        Ok(Offer::new(rate, distortion))
    }
}
