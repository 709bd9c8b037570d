//! Safe Rust over the C functions of the proved library. `crates/c_interface/include/pushkhami.h` says what each function does and what a
//! caller owes; here each duty is kept by what Rust's types say, or is met before a call, so that callers of this crate have none.
//! Nothing checks that the declarations below fit the functions: they are written by hand, and the tests of this crate try them.

/// When a position can be come to.
#[derive(Clone, Copy, Debug, PartialEq, Eq)]
pub enum Answer {
    /// At this time, and not before.
    At(u64),
    /// As soon after this time as one likes, and not at it or before.
    After(u64),
    Never,
}

/// Why there is no answer.
#[derive(Clone, Copy, Debug, PartialEq, Eq)]
pub enum Refusal {
    /// There are more kinds of states than allowed.
    Many,
    /// Fewer words were lent than [`words_needed`] says.
    FewWords,
    /// The row is no clockwork's.
    NoClockwork,
    /// The clockwork has no such position.
    NoPosition,
}

/// What one exploration tells.
#[derive(Clone, Debug, PartialEq, Eq)]
pub struct Explored {
    /// For each position, in order, when it can be come to.
    pub answers: Vec<Answer>,
    /// There are no more kinds of states than so many.
    pub kinds: usize,
}

/// No row has more positions.
const MOST_POSITIONS: usize = 256;

const EXPLORED: u32 = 0;
const AT: u32 = 1;
const AFTER: u32 = 2;
const NEVER: u32 = 3;
const MANY: u32 = 4;
const FEW: u32 = 5;
const NO_CLOCKWORK: u32 = 6;
const NO_POSITION: u32 = 7;

#[repr(C)]
#[derive(Clone, Copy)]
struct Reply {
    kind: u32,
    time: u64,
}

#[repr(C)]
struct Exploration {
    outcome: u32,
    positions: u32,
    kinds: usize,
}

unsafe extern "C" {
    fn pushkhami_words(row: usize, kinds: u32) -> usize;

    fn pushkhami_ask(
        clockwork: *const u32,
        row: usize,
        position: usize,
        kinds: u32,
        work: *mut u32,
        words: usize,
    ) -> Reply;

    fn pushkhami_explore(
        clockwork: *const u32,
        row: usize,
        kinds: u32,
        work: *mut u32,
        words: usize,
        replies: *mut Reply,
        places: usize,
    ) -> Exploration;
}

fn refusal_of(number: u32) -> Refusal {
    match number {
        MANY => Refusal::Many,
        FEW => Refusal::FewWords,
        NO_CLOCKWORK => Refusal::NoClockwork,
        NO_POSITION => Refusal::NoPosition,
        // the functions promise that there is no other; and 256 replies are enough for any row
        _ => unreachable!("no refusal has the number {number}"),
    }
}

impl Reply {
    fn answer(self) -> Result<Answer, Refusal> {
        match self.kind {
            AT => Ok(Answer::At(self.time)),
            AFTER => Ok(Answer::After(self.time)),
            NEVER => Ok(Answer::Never),
            other => Err(refusal_of(other)),
        }
    }
}

/// How many words must be lent for a row of so many numbers, where so many kinds of states are allowed; none where the number has no place.
#[must_use]
pub fn words_needed(row: usize, kinds: u32) -> Option<usize> {
    // SAFETY: numbers alone cross, and the function requires nothing of them
    match unsafe { pushkhami_words(row, kinds) } {
        0 => None,
        words => Some(words),
    }
}

/// When the clockwork of a row can be at a position. The lent words may hold anything, and hold anything afterwards.
pub fn ask(
    clockwork: &[u32],
    position: usize,
    kinds: u32,
    work: &mut [u32],
) -> Result<Answer, Refusal> {
    // SAFETY: each pointer and its length are those of one slice, which is there, aligned, at most 2^63 - 1 bytes long and initialised;
    // the one that is written is borrowed alone, so it does not overlap the other
    let reply = unsafe {
        pushkhami_ask(
            clockwork.as_ptr(),
            clockwork.len(),
            position,
            kinds,
            work.as_mut_ptr(),
            work.len(),
        )
    };
    reply.answer()
}

/// When the clockwork of a row can be at each of its positions, by one exploration.
pub fn explore_all(clockwork: &[u32], kinds: u32, work: &mut [u32]) -> Result<Explored, Refusal> {
    let mut replies = [Reply { kind: 0, time: 0 }; MOST_POSITIONS];
    // SAFETY: as in `ask`; the replies are a third slice, borrowed alone
    let exploration = unsafe {
        pushkhami_explore(
            clockwork.as_ptr(),
            clockwork.len(),
            kinds,
            work.as_mut_ptr(),
            work.len(),
            replies.as_mut_ptr(),
            replies.len(),
        )
    };
    if exploration.outcome != EXPLORED {
        return Err(refusal_of(exploration.outcome));
    }
    let answers = replies[..exploration.positions as usize]
        .iter()
        .map(|reply| reply.answer())
        .collect::<Result<_, _>>()?;
    Ok(Explored {
        answers,
        kinds: exploration.kinds,
    })
}
