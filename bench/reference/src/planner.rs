//! The planner: a trellis of places, one for each grade and each number of
//! bits of every standing block.

use super::costs::Kind;
use super::faults::Fault;
use super::offers::Block;
use super::terms::Terms;

/// How many blocks can stand.
pub const BLOCKS: usize = 64;

/// The least cost of the choices that end in this place; none where there is
/// no such choice.
type Place<K> = Option<K>;

#[derive(Clone, Debug, PartialEq, Eq)]
pub struct Plan<K> {
    pub bits: usize,
    pub cost: K,
    pub grades: Vec<usize>,
}

pub struct Planner<K> {
    terms: Terms,
    /// How many places the planner may use.
    capacity: usize,
    blocks: Vec<Block>,
    /// Block after block, in each by grade and then by bits.
    places: Vec<Place<K>>,
}

impl<K: Kind> Planner<K> {
    pub fn open(terms: Terms, capacity: usize) -> Planner<K> {
        Planner {
            terms,
            capacity,
            blocks: Vec::new(),
            places: Vec::new(),
        }
    }

    pub fn terms(&self) -> &Terms {
        &self.terms
    }

    pub fn standing(&self) -> usize {
        self.blocks.len()
    }

    /// Puts a block behind the standing ones. Of its offers those below the
    /// number of grades count.
    pub fn add(&mut self, block: &Block) -> Result<(), Fault> {
        if self.blocks.len() == BLOCKS {
            return Err(Fault::TooManyBlocks);
        }
        let before = self.places.len();
        let after = before + self.terms.places_per_block();
        if after > self.capacity {
            return Err(Fault::TooFewPlaces);
        }
        self.places.resize(after, None);
        let (earlier, new) = self.places.split_at_mut(before);
        let width = self.terms.ceiling() + 1;
        let column = match self.blocks.len() {
            0 => None,
            standing => Some(&earlier[(standing - 1) * self.terms.places_per_block()..]),
        };
        for (grade, row) in new.chunks_exact_mut(width).enumerate() {
            let Some(offer) = block[grade] else { continue };
            let rate = offer.rate as usize;
            match column {
                // The first block pays no charge.
                None => {
                    if let Some(place) = row.get_mut(rate) {
                        *place = Some(K::START.join(offer.distortion));
                    }
                }
                Some(column) => {
                    for (from, row_before) in column.chunks_exact(width).enumerate() {
                        let shift = rate + self.terms.charge(from, grade);
                        if shift < width {
                            relax(&mut row[shift..], row_before, offer.distortion);
                        }
                    }
                }
            }
        }
        self.blocks.push(*block);
        Ok(())
    }

    /// Drops the last block.
    pub fn take_back(&mut self) -> Result<(), Fault> {
        self.blocks.pop().ok_or(Fault::NoBlock)?;
        let left = self.blocks.len() * self.terms.places_per_block();
        self.places.truncate(left);
        Ok(())
    }

    /// The plan that the tie rules select within the budget.
    pub fn plan(&self, budget: u32) -> Result<Plan<K>, Fault> {
        let budget = budget as usize;
        if budget > self.terms.ceiling() {
            return Err(Fault::Budget);
        }
        let Some(last) = self.blocks.len().checked_sub(1) else {
            return Ok(Plan {
                bits: 0,
                cost: K::START,
                grades: Vec::new(),
            });
        };

        // Least cost, then fewest bits, then lowest grade.
        let (cost, bits, grade) = (0..self.terms.grades())
            .flat_map(|grade| {
                let row = &self.row(last, grade)[..=budget];
                row.iter()
                    .enumerate()
                    .filter_map(move |(bits, place)| place.map(|cost| (cost, bits, grade)))
            })
            .min()
            .ok_or(Fault::NothingFits)?;

        Ok(Plan {
            bits,
            cost,
            grades: self.way_back(last, grade, bits),
        })
    }

    /// The fewest bits at which a choice costs no more than the bound.
    pub fn fewest(&self, bound: K) -> Result<usize, Fault> {
        let Some(last) = self.blocks.len().checked_sub(1) else {
            return if K::START <= bound {
                Ok(0)
            } else {
                Err(Fault::NoneWithin)
            };
        };
        let width = self.terms.ceiling() + 1;
        let column = &self.places[last * self.terms.places_per_block()..];
        (0..width)
            .find(|&bits| {
                (0..self.terms.grades())
                    .any(|grade| column[grade * width + bits].is_some_and(|cost| cost <= bound))
            })
            .ok_or(Fault::NoneWithin)
    }

    /// The places of one grade of one block, by bits.
    fn row(&self, block: usize, grade: usize) -> &[Place<K>] {
        let width = self.terms.ceiling() + 1;
        let start = block * self.terms.places_per_block() + grade * width;
        &self.places[start..start + width]
    }

    /// The grades from the first block to the one that ends in this place. At
    /// each step back the lowest grade is taken that gives the place its cost.
    fn way_back(&self, last: usize, mut grade: usize, mut bits: usize) -> Vec<usize> {
        let mut grades = vec![grade];
        for block in (1..=last).rev() {
            let offer = self.blocks[block][grade].expect("a reached grade is offered");
            let cost = self.row(block, grade)[bits].expect("the place is reached");
            (grade, bits) = (0..self.terms.grades())
                .find_map(|from| {
                    let step = offer.rate as usize + self.terms.charge(from, grade);
                    let left = bits.checked_sub(step)?;
                    let before = self.row(block - 1, from)[left]?;
                    (before.join(offer.distortion) == cost).then_some((from, left))
                })
                .expect("some grade before leads to a reached place");
            grades.push(grade);
        }
        grades.reverse();
        grades
    }
}

/// Joins the distortion to each reached place of `from` and keeps the result
/// in the place of `into` at the same index, unless that has a lower cost.
fn relax<K: Kind>(into: &mut [Place<K>], from: &[Place<K>], distortion: u32) {
    for (place, before) in into.iter_mut().zip(from) {
        if let Some(before) = before {
            let cost = before.join(distortion);
            if place.is_none_or(|kept| cost < kept) {
                *place = Some(cost);
            }
        }
    }
}
