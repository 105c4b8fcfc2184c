use std::collections::BTreeMap;

use super::*;

fn answers(text: &str) -> String {
    String::from_utf8(answer(text.as_bytes(), SLOTPLAN_PLACES)).unwrap()
}

#[test]
fn worked_job() {
    let text = "\
J,T,2,10,2
O,1,0,1,9,4,1
O,1,0,1,5,3,2
B,1
B,6
B,7
D,13
D,2
U
B,7
B,11
";
    let expected = "\
fault,4,0,planner,35
plan,5,6,6,11,0,1
plan,6,7,7,3,1,1
bits,7,13,6
fault,8,0,planner,36
plan,10,7,4,1,1
fault,11,0,planner,33
";
    assert_eq!(answers(text), expected);
    assert_eq!(answers(text.trim_end()), expected);
}

#[test]
fn worked_job_by_worst() {
    let text = "J,W,2,10,2\nO,1,0,1,9,4,1\nO,1,0,1,5,3,2\nB,6\nB,7\nD,8\nD,1\n";
    let expected = "plan,4,6,2,9,0,0\nplan,5,7,7,2,1,1\nbits,6,8,7\nfault,7,0,planner,36\n";
    assert_eq!(answers(text), expected);
}

#[test]
fn offers_of_the_manual() {
    let eighths_by_grade = [0, 8, 13, 16, 21, 24, 29, 32, 37, 40, 45, 48, 53, 56, 61, 64];
    let profiles = [
        65_536, 16_384, 7_281, 4_096, 1_820, 1_024, 455, 256, 113, 64, 28, 16, 7, 4, 1, 1,
    ];
    let block = gain_block(8, 1);
    for grade in 0..GRADES {
        let offer = block[grade].unwrap();
        assert_eq!(offer.rate, eighths_by_grade[grade]);
        assert_eq!(offer.distortion, profiles[grade]);
    }
    assert_eq!(gain_block(3, 1)[2], Offer::new(5, 7_281));
    assert_eq!(weight_over(2, &gain_block(8, 128))[0], None);
    assert_eq!(
        weight_over(2, &gain_block(8, 127))[0],
        Offer::new(0, 16_646_144)
    );

    let own = |rate, distortion| [Offer::new(rate, distortion); GRADES];
    assert_eq!(weight_over(255, &own(1, 65_793)), own(1, 16_777_215));
    assert_eq!(weight_over(255, &own(1, 65_794)), NO_OFFERS);
    assert_eq!(extra_over(1, &own(65_534, 1)), own(65_535, 1));
    assert_eq!(extra_over(1, &own(65_535, 1)), NO_OFFERS);
}

#[test]
fn every_refusal_of_the_text() {
    let cases = [
        ("B,6q", "2,text,1"),
        ("B", "0,text,2"),
        ("Q,5", "1,text,3"),
        ("J,T,2,9,0", "1,text,4"),
        ("O,1,0,65536,0", "4,block,20"),
        ("O,1,0,1,16777216", "5,block,21"),
        ("G,1,0,257,1", "4,block,22"),
        ("G,1,0,8,0", "5,block,23"),
        ("G,0,0,8,1", "2,block,24"),
        ("G,1,1024,8,1", "3,block,25"),
        ("U", "0,planner,32"),
        ("B,10", "0,planner,33"),
        ("B,4294967295", "0,planner,33"),
        ("B,4294967296", "2,text,1"),
        ("B,01", "2,text,1"),
        ("O,1,0,-,5", "5,text,1"),
        ("O,1,0,65536,-", "4,block,20"),
        ("O,1,0,5,-", "5,text,1"),
        ("O,1,0,x,-", "4,text,1"),
    ];
    for (line, fault) in cases {
        let text = format!("J,T,1,9,0\n{line}\n");
        assert_eq!(answers(&text), format!("fault,2,{fault}\n"), "{line}");
    }

    let openings = [
        ("U", "1,text,4"),
        ("J,X,2,9,0", "2,text,1"),
        ("J,T,17,x,0", "3,terms,10"),
        ("J,T,2,4096,0", "4,terms,11"),
        ("J,T,2,9,256", "5,terms,12"),
    ];
    for (line, fault) in openings {
        assert_eq!(answers(line), format!("fault,1,{fault}\n"), "{line}");
    }

    assert_eq!(answers(&"\n".repeat(TEXT_LIMIT)), "");
    assert_eq!(answers(&"\n".repeat(TEXT_LIMIT + 1)), "fault,0,0,text,5\n");
}

#[test]
fn refused_adds() {
    let text = "J,T,1,0,0\n".to_string() + &"O,1,0,0,1\n".repeat(65) + "B,0\n";
    let zeros = ",0".repeat(64);
    let expected = format!("fault,66,0,planner,30\nplan,67,0,0,64{zeros}\n");
    assert_eq!(answers(&text), expected);

    let text = b"J,T,4,3,0\nG,1,0,1,1\n";
    assert_eq!(answer(text, 15), b"fault,2,0,planner,31\n");
    assert_eq!(answer(text, 16), b"");
}

/// Numbers that look random, the same at every run.
struct Random(u64);

impl Random {
    fn below(&mut self, end: u32) -> u32 {
        self.0 ^= self.0 << 13;
        self.0 ^= self.0 >> 7;
        self.0 ^= self.0 << 17;
        (self.0 >> 32) as u32 % end
    }
}

struct Photograph {
    terms: Terms,
    blocks: Vec<Block>,
}

fn photograph(random: &mut Random) -> Photograph {
    let grades = 1 + random.below(4);
    let mut terms = Terms::new(grades, random.below(24)).unwrap();
    for from in 0..grades as usize {
        for to in 0..grades as usize {
            if from != to {
                terms.set_pair(from, to, random.below(4)).unwrap();
            }
        }
    }
    let distortions = 1 + random.below(12);
    let blocks = (0..random.below(6))
        .map(|_| {
            let mut block = NO_OFFERS;
            for offer in &mut block {
                if random.below(5) > 0 {
                    *offer = Offer::new(random.below(7), random.below(distortions));
                }
            }
            block
        })
        .collect();
    Photograph { terms, blocks }
}

/// A choice with its bits and its cost.
#[derive(Clone)]
struct Choice<K> {
    grades: Vec<usize>,
    bits: usize,
    cost: K,
}

/// All choices for the first blocks: those for none, for one, and so on.
fn choices<K: Kind>(photograph: &Photograph) -> Vec<Vec<Choice<K>>> {
    let Photograph { terms, blocks } = photograph;
    let mut all = vec![vec![Choice {
        grades: Vec::new(),
        bits: 0,
        cost: K::START,
    }]];
    for block in blocks {
        let mut longer = Vec::new();
        for choice in all.last().unwrap() {
            for (grade, offer) in block[..terms.grades()].iter().enumerate() {
                let Some(offer) = offer else { continue };
                let charge = choice
                    .grades
                    .last()
                    .map_or(0, |&from| terms.charge(from, grade));
                let mut grades = choice.grades.clone();
                grades.push(grade);
                longer.push(Choice {
                    grades,
                    bits: choice.bits + charge + offer.rate as usize,
                    cost: choice.cost.join(offer.distortion),
                });
            }
        }
        all.push(longer);
    }
    all
}

/// The least cost of the choices that end in a grade with some bits, by the
/// last grade (none for no block) and the bits.
fn least<K: Kind>(choices: &[Choice<K>]) -> BTreeMap<(Option<usize>, usize), K> {
    let mut least = BTreeMap::new();
    for choice in choices {
        let kept = least
            .entry((choice.grades.last().copied(), choice.bits))
            .or_insert(choice.cost);
        *kept = choice.cost.min(*kept);
    }
    least
}

/// The plan by the tie rules, found from the enumeration.
fn named_plan<K: Kind>(
    photograph: &Photograph,
    all: &[Vec<Choice<K>>],
    budget: usize,
) -> Option<Plan<K>> {
    let Photograph { terms, blocks } = photograph;
    let (cost, bits, mut grade) = least(all.last().unwrap())
        .into_iter()
        .filter(|&((_, bits), _)| bits <= budget)
        .map(|((grade, bits), cost)| (cost, bits, grade))
        .min()?;
    let plan_bits = bits;
    let mut bits = bits;
    let mut grades = Vec::new();
    for (n, block) in blocks.iter().enumerate().rev() {
        let here = grade.unwrap();
        grades.insert(0, here);
        let offer = block[here].unwrap();
        let cost = least(&all[n + 1])[&(grade, bits)];
        // The map is sorted, so the lowest grade comes first.
        (grade, bits) = least(&all[n])
            .into_iter()
            .find(|&((from, left), before)| {
                let charge = from.map_or(0, |from| terms.charge(from, here));
                left + charge + offer.rate as usize == bits && before.join(offer.distortion) == cost
            })
            .unwrap()
            .0;
    }
    Some(Plan {
        bits: plan_bits,
        cost,
        grades,
    })
}

fn agrees_with_enumeration<K: Kind + std::fmt::Debug>(seed: u64) {
    let mut random = Random(seed);
    for _ in 0..400 {
        let photograph = photograph(&mut random);
        let Photograph { terms, blocks } = &photograph;
        let mut planner = Planner::<K>::open(terms.clone(), 1_000);
        for block in blocks {
            // A block that comes and goes leaves no trace.
            planner.add(&gain_block(1, 1)).unwrap();
            planner.take_back().unwrap();
            planner.add(block).unwrap();
        }
        let all = choices::<K>(&photograph);
        let whole = all.last().unwrap();
        let ceiling = terms.ceiling();

        for budget in 0..=ceiling {
            let found = planner.plan(budget as u32);
            let fitting = whole.iter().filter(|choice| choice.bits <= budget);
            match &found {
                Ok(plan) => {
                    let choice = whole
                        .iter()
                        .find(|choice| choice.grades == plan.grades)
                        .expect("the plan is a choice");
                    assert_eq!((choice.bits, choice.cost), (plan.bits, plan.cost));
                    assert!(plan.bits <= budget);
                    assert_eq!(fitting.map(|choice| choice.cost).min(), Some(plan.cost));
                }
                Err(fault) => {
                    assert_eq!(*fault, Fault::NothingFits);
                    assert_eq!(fitting.count(), 0);
                }
            }
            assert_eq!(found.ok(), named_plan(&photograph, &all, budget));
        }
        assert_eq!(planner.plan(ceiling as u32 + 1), Err(Fault::Budget));

        for bound in 0..40 {
            let bound = K::from_number(bound);
            let fewest = whole
                .iter()
                .filter(|choice| choice.cost <= bound && choice.bits <= ceiling)
                .map(|choice| choice.bits)
                .min();
            assert_eq!(planner.fewest(bound), fewest.ok_or(Fault::NoneWithin));
        }
    }
}

#[test]
fn total_agrees_with_enumeration() {
    agrees_with_enumeration::<Total>(1);
}

#[test]
fn worst_agrees_with_enumeration() {
    agrees_with_enumeration::<Worst>(2);
}
