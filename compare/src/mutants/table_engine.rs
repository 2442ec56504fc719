//! Mistakes with the table engine of request 9: in each entry of both tables, and in what stands around them.

mod classes;
mod nexts;
mod places;

use super::Mutant;
use crate::model::rules;
use crate::model::state::by_lowest_bits;
use crate::model::table_engine::Rules;

/// Scripts by the table engine, from a fresh parser and from one built by hand.
pub const FRESH: u8 = 16;
pub const BUILT: u8 = 17;

pub fn mutants() -> Vec<Mutant> {
    let mut all = Vec::new();
    for op in [FRESH, BUILT] {
        all.extend(classes::mutants(op));
        all.extend(nexts::mutants(op));
        all.extend(places::mutants(op));
        let states = rules::Rules { state: by_lowest_bits, ..rules::RULES };
        all.push(Mutant::rules(op, "04 to 06 are read by the two lowest bits", states));
    }
    all.extend(places::built());
    all
}

/// A variant by other rules of the table engine.
fn by(op: u8, mistake: impl Into<String>, tables: Rules) -> Mutant {
    Mutant::rules(op, mistake, rules::Rules { tables, ..rules::RULES })
}
