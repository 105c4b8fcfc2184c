//! A whole job text and its answer lines.

use std::io::Write;

use super::command::{read_instruction, read_opening, FieldFault, Instruction, KindName};
use super::costs::{Kind, Total, Worst};
use super::faults::Fault;
use super::planner::Planner;
use super::terms::Terms;

/// The most bytes that a job text may have.
pub const TEXT_LIMIT: usize = 32_768;

/// How many places `slotplan` has.
pub const SLOTPLAN_PLACES: usize = 4_096;

/// The answer lines of a job text, for a planner with so many places.
pub fn answer(text: &[u8], places: usize) -> Vec<u8> {
    let mut out = Answers(Vec::new());
    if text.len() > TEXT_LIMIT {
        out.fault(0, Fault::TextTooLong.into());
        return out.0;
    }

    let mut lines = (1..)
        .zip(text.split(|&byte| byte == b'\n'))
        .filter(|(_, line)| !line.is_empty());

    // Until a job is open only its opening is looked for.
    for (number, line) in lines.by_ref() {
        match read_opening(line) {
            Err(fault) => out.fault(number, fault),
            Ok(opening) => {
                match opening.kind {
                    KindName::Total => run::<Total>(opening.terms, places, lines, &mut out),
                    KindName::Worst => run::<Worst>(opening.terms, places, lines, &mut out),
                }
                break;
            }
        }
    }
    out.0
}

/// The rest of the text, once a job is open.
fn run<'a, K: Kind>(
    terms: Terms,
    places: usize,
    lines: impl Iterator<Item = (usize, &'a [u8])>,
    out: &mut Answers,
) {
    let mut planner = Planner::<K>::open(terms, places);
    for (number, line) in lines {
        if let Err(fault) = step(&mut planner, number, line, out) {
            out.fault(number, fault);
        }
    }
}

fn step<K: Kind>(
    planner: &mut Planner<K>,
    number: usize,
    line: &[u8],
    out: &mut Answers,
) -> Result<(), FieldFault> {
    match read_instruction(line, planner.terms())? {
        Instruction::Add(block) => planner.add(&block)?,
        Instruction::TakeBack => planner.take_back()?,
        Instruction::Plan(budget) => {
            let plan = planner.plan(budget)?;
            out.plan(number, budget, plan.bits, plan.cost.number(), &plan.grades);
        }
        Instruction::Fewest(bound) => {
            let bits = planner.fewest(K::from_number(bound))?;
            out.bits(number, bound, bits);
        }
    }
    Ok(())
}

/// The answer lines written so far.
struct Answers(Vec<u8>);

impl Answers {
    fn plan(&mut self, line: usize, budget: u32, bits: usize, cost: u32, grades: &[usize]) {
        self.write(format_args!("plan,{line},{budget},{bits},{cost}"));
        for grade in grades {
            self.write(format_args!(",{grade}"));
        }
        self.write(format_args!("\n"));
    }

    fn bits(&mut self, line: usize, bound: u32, bits: usize) {
        self.write(format_args!("bits,{line},{bound},{bits}\n"));
    }

    fn fault(&mut self, line: usize, FieldFault { field, fault }: FieldFault) {
        let layer = fault.layer().name();
        let number = fault.number();
        self.write(format_args!("fault,{line},{field},{layer},{number}\n"));
    }

    fn write(&mut self, text: std::fmt::Arguments) {
        self.0
            .write_fmt(text)
            .expect("writing to a vector does not fail");
    }
}
