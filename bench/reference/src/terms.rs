//! The terms of planning.

use super::faults::Fault;
use super::offers::GRADES;

/// Number of grades, ceiling, and the charges of changing the grade.
#[derive(Clone, Debug)]
pub struct Terms {
    grades: usize,
    ceiling: usize,
    charges: [[u32; GRADES]; GRADES],
}

impl Terms {
    /// Terms without charges.
    pub fn new(grades: u32, ceiling: u32) -> Result<Terms, Fault> {
        Ok(Terms {
            grades: Terms::checked_grades(grades)? as usize,
            ceiling: Terms::checked_ceiling(ceiling)? as usize,
            charges: [[0; GRADES]; GRADES],
        })
    }

    pub fn checked_grades(grades: u32) -> Result<u32, Fault> {
        within(grades, 1, 16, Fault::Grades)
    }

    pub fn checked_ceiling(ceiling: u32) -> Result<u32, Fault> {
        within(ceiling, 0, 4_095, Fault::Ceiling)
    }

    pub fn checked_charge(charge: u32) -> Result<u32, Fault> {
        within(charge, 0, 255, Fault::Charge)
    }

    /// One charge for every change of grade.
    pub fn set_flat(&mut self, charge: u32) -> Result<(), Fault> {
        let charge = Terms::checked_charge(charge)?;
        for (from, row) in self.charges.iter_mut().enumerate() {
            for (to, entry) in row.iter_mut().enumerate() {
                *entry = if from == to { 0 } else { charge };
            }
        }
        Ok(())
    }

    /// A charge for the change from one grade to another.
    pub fn set_pair(&mut self, from: usize, to: usize, charge: u32) -> Result<(), Fault> {
        if from == to || from >= self.grades || to >= self.grades {
            return Err(Fault::Pair);
        }
        self.charges[from][to] = Terms::checked_charge(charge)?;
        Ok(())
    }

    pub fn grades(&self) -> usize {
        self.grades
    }

    pub fn ceiling(&self) -> usize {
        self.ceiling
    }

    pub fn charge(&self, from: usize, to: usize) -> usize {
        self.charges[from][to] as usize
    }

    /// How many places one block takes.
    pub fn places_per_block(&self) -> usize {
        self.grades * (self.ceiling + 1)
    }
}

/// The number itself, or the fault where it is not from `low` to `high`.
pub(super) fn within(number: u32, low: u32, high: u32, fault: Fault) -> Result<u32, Fault> {
    if (low..=high).contains(&number) {
        Ok(number)
    } else {
        Err(fault)
    }
}
