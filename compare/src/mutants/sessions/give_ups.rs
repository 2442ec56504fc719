//! Mistakes in giving up a wait.

use super::{awaits, becomes, Edit, CLOSED, CLOSING, OPEN, OPENING, WAITING};

pub const GIVING_UP: [(&str, Edit); 7] = [
    ("a give-up keeps the wait", |seen, line| {
        if seen.gives_up() {
            awaits(line, seen.state, seen.word);
        }
    }),
    ("a give-up from open closes", |seen, line| {
        if seen.gives_up() && seen.state == OPEN {
            becomes(line, CLOSED);
        }
    }),
    ("a give-up while waiting returns to open", |seen, line| {
        if seen.gives_up() && seen.state == WAITING {
            becomes(line, OPEN);
        }
    }),
    ("a give-up while closing returns to open", |seen, line| {
        if seen.gives_up() && seen.state == CLOSING {
            becomes(line, OPEN);
        }
    }),
    ("a give-up of an opening from open returns to open", |seen, line| {
        if seen.gives_up() && seen.state == OPENING && seen.sent_from == OPEN {
            becomes(line, OPEN);
        }
    }),
    ("a give-up keeps the awaited word", |seen, line| {
        if seen.gives_up() {
            let state = line[1];
            awaits(line, state, seen.word);
        }
    }),
    ("a give-up opens a closed session", |seen, line| {
        if seen.gives_up() && seen.state == CLOSED {
            becomes(line, OPEN);
        }
    }),
];
