//! Mistakes around the tables: what a break counts and where it leads, what is left from call to call, and parsers
//! built by hand.

use ld2410::access::Fields as ParserFields;

use super::{by, Mutant, BUILT};
use crate::model::division::LIMIT;
use crate::model::rules;
use crate::model::table_engine::{Place, Rules, RULES};
use crate::oracle::streams::in_range;
use crate::script::Call;
use Place::{Data, Length, Matching};

pub fn mutants(op: u8) -> Vec<Mutant> {
    let mut all = Vec::new();
    all.extend(BROKEN.map(|(mistake, broken)| by(op, mistake, Rules { broken, ..RULES })));
    all.extend(TRIED.map(|(mistake, tried)| by(op, mistake, Rules { tried, ..RULES })));
    all.extend(AFTER_BREAK.map(|(mistake, after_break)| by(op, mistake, Rules { after_break, ..RULES })));
    all.extend(FOUND.map(|(mistake, found)| by(op, mistake, Rules { found, ..RULES })));
    all.extend(RESET.map(|(mistake, reset)| by(op, mistake, Rules { reset, ..RULES })));
    all.push(by(op, "a slice goes on after a whole frame", Rules { stops: false, ..RULES }));
    all.push(by(op, "the limit is 53", Rules { limit: LIMIT - 1, ..RULES }));
    all.push(by(op, "the limit is 55", Rules { limit: LIMIT + 1, ..RULES }));
    all
}

/// Mistakes with parsers built by hand.
pub fn built() -> Vec<Mutant> {
    let of = |(mistake, in_range)| Mutant::rules(BUILT, mistake, rules::Rules { in_range, ..rules::RULES });
    IN_RANGE.into_iter().map(of).collect()
}

type Broken = fn(Place, usize) -> (usize, usize);

const BROKEN: [(&str, Broken); 5] = [
    ("a broken tail is no resync", |place, begun| match place {
        Matching(8..) => (0, begun),
        _ => right(begun),
    }),
    ("a tail broken at its first byte is no resync", |place, begun| match place {
        Matching(8 | 12) => (0, begun),
        _ => right(begun),
    }),
    ("a broken header is counted with the byte after it", |place, begun| match place {
        Matching(0..8) if begun > 0 => (1, begun + 1),
        _ => right(begun),
    }),
    ("a broken tail is counted without what stands before it", |place, begun| match place {
        Matching(state @ 8..) => (1, usize::from(state % 4)),
        _ => right(begun),
    }),
    ("a stray byte is a resync", |_, begun| (1, begun)),
];

fn right(begun: usize) -> (usize, usize) {
    (RULES.broken)(Data, begun)
}

const TRIED: [(&str, fn(Place) -> bool); 3] = [
    ("the byte that breaks a header is not tried as a first one", |place| !matches!(place, Matching(1..=3 | 5..=7))),
    ("the byte that breaks a tail is not tried as a first one", |place| !matches!(place, Matching(8..))),
    ("the second byte of a bad length is dropped with the header", |place| !matches!(place, Length(_))),
];

type AfterBreak = fn(Place, u8) -> Place;

const AFTER_BREAK: [(&str, AfterBreak); 2] = [
    ("a broken tail leads back into the data", |place, next| match place {
        Matching(8..) => Data,
        _ => Matching(next),
    }),
    ("a broken tail leads back to its first byte", |place, next| match place {
        Matching(state @ 8..) if next == 0 => Matching(state / 4 * 4),
        _ => Matching(next),
    }),
];

type Found = fn(Call<'_>, Place) -> Place;

const FOUND: [(&str, Found); 5] = [
    ("a slice begins anew", |call, place| match call {
        Call::Slice(_) => Matching(0),
        _ => place,
    }),
    ("a slice forgets the matching state", |call, place| match (call, place) {
        (Call::Slice(_), Matching(_)) => Matching(0),
        _ => place,
    }),
    ("a byte fed forgets the matching state", |call, place| match (call, place) {
        (Call::Feed(_), Matching(_)) => Matching(0),
        _ => place,
    }),
    ("the family of a matching state is forgotten between calls", |_, place| match place {
        Matching(state) => Matching(state & !4),
        _ => place,
    }),
    ("the bytes matched are forgotten between calls", |_, place| match place {
        Matching(state) => Matching(state / 4 * 4),
        _ => place,
    }),
];

const RESET: [(&str, fn(Place) -> Place); 3] = [
    ("a reset keeps the matching state", |place| match place {
        Matching(_) => place,
        _ => Matching(0),
    }),
    ("a reset keeps a begun header", |place| match place {
        Matching(0..8) => place,
        _ => Matching(0),
    }),
    ("a reset keeps length and data", |place| match place {
        Matching(_) => Matching(0),
        _ => place,
    }),
];

type InRange = fn(&ParserFields) -> bool;

const IN_RANGE: [(&str, InRange); 8] = [
    ("a header with matched 3 is reset first", |p| in_range(p) && !(p.state == 0 && p.matched == 3)),
    ("a header with matched 4 is not reset first", |p| in_range(p) || (p.state == 0 && p.matched == 4)),
    ("a header with matched 4 to 7 is not reset first", |p| in_range(p) || (p.state == 0 && p.matched < 8)),
    ("a header is never reset first", |p| in_range(p) || p.state == 0),
    ("a tail with matched 3 is reset first", |p| in_range(p) && !(p.state == 3 && p.matched == 3)),
    ("a tail with matched 4 to 7 is not reset first", |p| {
        in_range(p) || (p.state == 3 && p.matched < 8 && in_range(&ParserFields { matched: 0, ..p.clone() }))
    }),
    ("a length with matched 2 is not reset first", |p| in_range(p) || (p.state == 1 && p.matched == 2)),
    ("no parser is reset first", |_| true),
];
