//! The check of the comparison itself: wrong variants held against the right answers over the generated cases and over
//! the fixed list. Both must notice each of them.

use crate::case::Case;
use crate::generate;
use crate::list;
use crate::mutants::{self, Answer, Mutant};

/// How many cases it took to notice each of the variants.
struct Watch<'a> {
    mutants: &'a [Mutant],
    noticed: Vec<Option<u64>>,
    cases: u64,
}

impl<'a> Watch<'a> {
    fn new(mutants: &'a [Mutant]) -> Self {
        Self { mutants, noticed: vec![None; mutants.len()], cases: 0 }
    }

    fn see(&mut self, case: Case<'_>) {
        self.cases += 1;
        if self.noticed.iter().all(Option::is_some) {
            return;
        }
        let answer = Answer::to(case);
        for (mutant, noticed) in self.mutants.iter().zip(&mut self.noticed) {
            if noticed.is_none() && mutant.differs(case, &answer) {
                *noticed = Some(self.cases);
            }
        }
    }
}

/// Prints a line for each wrong variant; true where each is noticed by both.
pub fn run(ops: &[u8], seed: u64, scale: u64) -> bool {
    let (mut all, mut noticed) = (0, 0);
    for &op in ops {
        let mutants = mutants::of(op);
        let mut generated = Watch::new(&mutants);
        generate::cases(op, seed, scale, &mut |argument| generated.see(Case { op, argument }));
        let mut listed = Watch::new(&mutants);
        for argument in list::arguments(op) {
            listed.see(Case { op, argument: &argument });
        }
        for (mutant, by) in mutants.iter().zip(generated.noticed.iter().zip(&listed.noticed)) {
            println!("op {op}, {}: {}, {}", mutant.mistake, by_case("generated", by.0), by_case("listed", by.1));
            all += 1;
            noticed += u32::from(by.0.is_some() && by.1.is_some());
        }
    }
    println!("{noticed} of {all} wrong variants noticed by both");
    noticed == all
}

fn by_case(which: &str, noticed: &Option<u64>) -> String {
    match noticed {
        Some(number) => format!("noticed by {which} case {number}"),
        None => format!("NOT noticed by the {which} cases"),
    }
}
