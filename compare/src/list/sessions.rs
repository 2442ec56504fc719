//! Listed cases of op 20: each sentence of request 2, from both sides, and of every command.

use crate::generate::acks::WORDS;
use crate::generate::commands::COMMANDS;
use crate::generate::sessions::{
    awaited_acks, closed_sessions, failure, lengths_around, no_frames, open, open_sessions, opening, other_frames,
    success, waiting, ENABLE, ENABLE_WORD, END, RESTART, RESTART_WORD,
};
use crate::oracle::commands::command;
use crate::oracle::sessions::after;
use crate::published;
use crate::station::Script;

pub fn scripts() -> Vec<Vec<u8>> {
    let mut all = vec![Script::default()];
    all.extend(waits().into_iter().flat_map(meetings));
    all.extend(closed_sessions().into_iter().map(every_command));
    all.extend(closed_sessions().into_iter().chain(open_sessions()).map(unasked));
    all.extend(buffers(Script::default(), ENABLE));
    all.extend(COMMANDS.into_iter().flat_map(|numbers| buffers(open(), numbers)));
    let mut all: Vec<_> = all.into_iter().map(|script| script.0).collect();
    all.extend(ends());
    all
}

/// Sessions that wait: opening from closed, and each of COMMANDS that goes from open.
fn waits() -> Vec<Script> {
    let mut all = vec![opening()];
    all.extend(COMMANDS.map(waiting));
    all.retain(|session| after(&session.0).awaited().is_some());
    all
}

/// Everything that a wait may meet.
fn meetings(wait: Script) -> Vec<Script> {
    let word = after(&wait.0).awaited().unwrap_or(0);
    let mut all = ended(&wait, word);
    all.extend(passed(&wait, word));
    all.push(given_up(&wait, word));
    all.push(every_command(wait).succeed(word));
    all
}

/// Ends the wait by its own acknowledgement, good and failed, which comes again. A give-up then changes nothing, and
/// the last command shows whether the session is open.
fn ended(wait: &Script, word: u16) -> Vec<Script> {
    let ended = |frame: &Vec<u8>| wait.clone().hand(frame).hand(frame).give_up().ask(END);
    awaited_acks(word).iter().map(ended).collect()
}

/// Hands over all that passes: the acknowledgements of every other word, reports, and bytes that are no frame. Then
/// ends the wait, by success and by failure.
fn passed(wait: &Script, word: u16) -> [Script; 2] {
    let mut passing = acks(|&other| other != word);
    passing.extend(other_frames(word));
    passing.extend(no_frames(word));
    let handed = passing.iter().fold(wait.clone(), |script, bytes| script.hand(bytes));
    [handed.clone().succeed(word), handed.fail(word)]
}

/// The acknowledgements, good and failed, of the words of the link that are meant.
fn acks(meant: impl Fn(&u16) -> bool) -> Vec<Vec<u8>> {
    WORDS.into_iter().filter(meant).flat_map(|word| [success(word), failure(word)]).collect()
}

/// Gives up, twice. The acknowledgement is late then: while closed, in a later opening, and in the wait for `Restart`.
fn given_up(wait: &Script, word: u16) -> Script {
    let late = |script: Script| script.succeed(word).fail(word);
    let closed = late(wait.clone().give_up().give_up()).ask(END);
    let open = late(closed.ask(ENABLE)).succeed(ENABLE_WORD);
    late(open.ask(RESTART)).succeed(RESTART_WORD)
}

/// Sends every command, into no buffer and into one that is long enough: a session that waits refuses each, and a
/// closed one all but `EnableConfig`, which is the last.
fn every_command(session: Script) -> Script {
    COMMANDS.into_iter().rev().fold(session, |script, numbers| script.send(numbers, 0, 0).ask(numbers))
}

/// Hands over every acknowledgement, a report and bytes that are no frame where no wait is on, and gives up. The last
/// commands show whether the session is closed or open.
fn unasked(session: Script) -> Script {
    let mut all = acks(|_| true);
    all.push(published::bytes(published::B));
    all.extend(no_frames(ENABLE_WORD));
    let handed = all.iter().fold(session, |script, bytes| script.hand(bytes));
    handed.give_up().ask(END).ask(ENABLE)
}

/// Sends a command into buffers around its frame's length. After those that are too short its acknowledgement and a
/// give-up change nothing, and it goes into one of just the length.
fn buffers(session: Script, numbers: [u8; 6]) -> [Script; 3] {
    let word = command(numbers).map_or(0, |command| command.word());
    let [none, short, just, longer, longest] = lengths_around(numbers);
    let refused = session.clone().send(numbers, none, 0x5A).send(numbers, short, 0x5A).succeed(word).give_up();
    [
        refused.send(numbers, just, 0x5A).succeed(word),
        session.clone().send(numbers, longer, 0xFF).fail(word),
        session.send(numbers, longest, 0x5A).give_up(),
    ]
}

/// Scripts that are cut short, and those that a number without an event or a COMMAND that is none ends.
fn ends() -> Vec<Vec<u8>> {
    let whole = Script::default().send(END, 0, 0).send(ENABLE, 14, 0).succeed(ENABLE_WORD).give_up().0;
    let mut all: Vec<_> = (0..whole.len()).map(|length| whole[..length].to_vec()).collect();
    for number in [3, 4, 255] {
        all.push([&opening().0[..], &[number, 2]].concat());
    }
    for none in [[12, 0, 0, 0, 0, 0], [255, 0, 0, 0, 0, 0], [7, 0, 0, 0, 0, 0], [7, 9, 0, 0, 0, 0]] {
        all.push(opening().ask(none).give_up().0);
    }
    all
}
