/// Access for the comparison, put after the unchanged text of the original: its parser's private fields, by the
/// numbers of docs/REPLAY.md.
pub mod access {
    use super::{Kind, Parser, State, Stats, MAX_FRAME};

    /// Where the original's counters stop.
    pub const ORIGINAL_MAX: u64 = 4_294_967_295;

    /// The four counters, as wide as ours.
    #[derive(Clone, Copy, PartialEq, Eq)]
    pub struct Counters {
        pub frames: u64,
        pub resyncs: u64,
        pub dropped: u64,
        pub malformed: u64,
    }

    impl Counters {
        /// All four at one number.
        #[must_use]
        pub const fn all(counter: u64) -> Self {
            Self { frames: counter, resyncs: counter, dropped: counter, malformed: counter }
        }

        /// The original's counters.
        #[must_use]
        pub fn of(stats: Stats) -> Self {
            let Stats { frames, resyncs, dropped, malformed } = stats;
            Self {
                frames: frames.into(),
                resyncs: resyncs.into(),
                dropped: dropped.into(),
                malformed: malformed.into(),
            }
        }

        /// As the original is given them: each lowered to where its own stop.
        #[must_use]
        pub fn lowered(self) -> Stats {
            let lowered = |counter: u64| counter.min(ORIGINAL_MAX) as u32;
            Stats {
                frames: lowered(self.frames),
                resyncs: lowered(self.resyncs),
                dropped: lowered(self.dropped),
                malformed: lowered(self.malformed),
            }
        }
    }

    /// Every field of a parser.
    #[derive(Clone)]
    pub struct Fields {
        /// 0 header, 1 length, 2 data, 3 tail.
        pub state: u8,
        /// 0 report, 1 command.
        pub kind: u8,
        pub matched: usize,
        pub len: usize,
        pub pos: usize,
        pub counters: Counters,
        pub buf: [u8; MAX_FRAME],
    }

    /// The parser with these fields, its counters lowered; none for a state or kind that has no number.
    #[must_use]
    pub fn parser(fields: &Fields) -> Option<Parser> {
        let state = match fields.state {
            0 => State::Header,
            1 => State::Len,
            2 => State::Data,
            3 => State::Tail,
            _ => return None,
        };
        let kind = match fields.kind {
            0 => Kind::Report,
            1 => Kind::Command,
            _ => return None,
        };
        Some(Parser {
            buf: fields.buf,
            state,
            kind,
            matched: fields.matched,
            len: fields.len,
            pos: fields.pos,
            stats: fields.counters.lowered(),
        })
    }

    /// The length of the frame that is begun: what the fields in use in each state stand for.
    #[must_use]
    pub fn unfinished(parser: &Parser) -> usize {
        match parser.state {
            State::Header => parser.matched,
            State::Len => 4 + parser.matched,
            State::Data => 6 + parser.pos,
            State::Tail => 6 + parser.len + parser.matched,
        }
    }

    /// The parser's buffer, in which a delivered payload stands.
    #[must_use]
    pub fn buffer(parser: &Parser) -> &[u8; MAX_FRAME] {
        &parser.buf
    }
}
