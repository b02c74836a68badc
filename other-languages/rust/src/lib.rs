//! Rodcrank for Rust: safe functions over the proved library `librodcrank.a`.
//!
//! Every function takes any bytes and any numbers. A case is given as its file's bytes; `t` is the absence number; `limit` is the most trials that
//! the search may use. A position is the steps done so far, each with the person who did it; today steps are done in the order listed.
use std::fmt;

/// The C interface as `rodcrank.h` declares it.
pub mod ffi {
    /// The answer as the library writes it.
    #[repr(C)]
    #[derive(Clone, Copy, PartialEq, Eq, Debug, Default)]
    pub struct Answer {
        pub refused: u64,
        pub place: u64,
        pub said: u64,
        pub trials: u64,
        pub people: [u64; 2],
        pub step: u64,
        pub person: u64,
        pub way: u64,
        pub steps: u64,
        pub plan: [u64; 8],
    }

    pub const LIMIT: u64 = 1;
    pub const YES: u64 = 2;
    pub const NO: u64 = 3;
    pub const NOBODY: u64 = 4;
    pub const NAMED: u64 = 5;

    extern "C" {
        pub fn rodcrank_judge(file: *const u8, file_len: usize, answer: *mut Answer);
        pub fn rodcrank_plan(file: *const u8, file_len: usize, limit: u32, answer: *mut Answer);
        pub fn rodcrank_static(file: *const u8, file_len: usize, t: u32, limit: u32, answer: *mut Answer);
        pub fn rodcrank_decremental(file: *const u8, file_len: usize, t: u32, limit: u32, answer: *mut Answer);
        pub fn rodcrank_one_shot(file: *const u8, file_len: usize, t: u32, limit: u32, answer: *mut Answer);
        pub fn rodcrank_dynamic(file: *const u8, file_len: usize, t: u32, limit: u32, answer: *mut Answer);
        pub fn rodcrank_advice(
            file: *const u8,
            file_len: usize,
            position: *const u8,
            position_len: usize,
            t: u32,
            absent_low: u64,
            absent_high: u64,
            limit: u32,
            answer: *mut Answer,
        );
        pub fn rodcrank_away(file: *const u8, file_len: usize, position: *const u8, position_len: usize, t: u32, limit: u32, answer: *mut Answer);
        pub fn rodcrank_verdicts(input: *const u8, input_len: usize, text: *mut u8, text_len: usize) -> usize;
    }
}

/// Bytes of the longest text of [`verdicts`].
pub const TEXT: usize = 560;

/// A set of people, as two words: bit v of `low` for person v, bit v - 64 of `high` for a person v above 63.
#[derive(Clone, Copy, PartialEq, Eq, Hash, Debug, Default)]
pub struct People {
    pub low: u64,
    pub high: u64,
}

impl People {
    /// Nobody.
    pub const NONE: People = People { low: 0, high: 0 };

    /// Is the person a member?
    pub fn contains(self, person: u8) -> bool {
        match person {
            0..=63 => self.low >> person & 1 == 1,
            64..=127 => self.high >> (person - 64) & 1 == 1,
            _ => false,
        }
    }

    /// The set with one person more. There is room for persons 0 to 127.
    pub fn with(mut self, person: u8) -> People {
        match person {
            0..=63 => self.low |= 1 << person,
            64..=127 => self.high |= 1 << (person - 64),
            _ => {}
        }
        self
    }

    /// How many members there are.
    pub fn len(self) -> u32 {
        self.low.count_ones() + self.high.count_ones()
    }

    pub fn is_empty(self) -> bool {
        self == People::NONE
    }

    /// The members, ascending.
    pub fn iter(self) -> impl Iterator<Item = u8> {
        (0..128).filter(move |v| self.contains(*v))
    }
}

impl FromIterator<u8> for People {
    fn from_iter<I: IntoIterator<Item = u8>>(people: I) -> People {
        people.into_iter().fold(People::NONE, People::with)
    }
}

/// The members as the program lists them, or `none`.
impl fmt::Display for People {
    fn fmt(&self, f: &mut fmt::Formatter<'_>) -> fmt::Result {
        if self.is_empty() {
            return f.write_str("none");
        }
        let members: Vec<String> = self.iter().map(|v| v.to_string()).collect();
        f.write_str(&members.join(" "))
    }
}

/// Why a call was turned away: the number in the scope's table, and the place.
#[derive(Clone, Copy, PartialEq, Eq, Hash, Debug)]
pub struct Refusal {
    pub number: u64,
    pub place: u64,
}

impl Refusal {
    /// What the number means; nothing for a number that this version does not know.
    pub fn meaning(&self) -> &'static str {
        match self.number {
            1 => "fewer than 24 bytes",
            2 => "the edition is not 1",
            3 => "the last number of the header is not 0",
            4 => "a count is above its limit",
            5 => "an offset or the total length is not the one that the counts give",
            6 => "the file's length is not the total length",
            7 => "a person holds a role at or above the role count",
            8 => "a step names a role at or above the role count",
            9 => "a step that must come before is not below the step's own number, or the spare byte is not 0",
            10 => "a table row names a person at or above the people count",
            11 => "a rule's form, relation or a step does not exist, or X has the wrong size",
            12 => "t is above 32",
            13 => "the position is as long as the chain, or an entry is of another step, unknown, not allowed, or breaks a rule",
            14 => "the absence set names an unknown person or has more than t",
            _ => "",
        }
    }
}

impl fmt::Display for Refusal {
    fn fmt(&self, f: &mut fmt::Formatter<'_>) -> fmt::Result {
        write!(f, "refused {} at {}", self.number, self.place)?;
        match self.meaning() {
            "" => Ok(()),
            meaning => write!(f, ": {}", meaning),
        }
    }
}

impl std::error::Error for Refusal {}

/// What a search came to: stopped at its limit, or ended with something after so many trials.
#[derive(Clone, PartialEq, Eq, Debug)]
pub enum Search<T> {
    Limit { trials: u32 },
    Ended { got: T, trials: u32 },
}

/// Every question is answered or refused.
pub type Answer<T> = Result<Search<T>, Refusal>;

/// The desk wins, or it does not, and a set is shown.
#[derive(Clone, Copy, PartialEq, Eq, Debug)]
pub enum Verdict {
    Yes,
    No { shown: People },
}

/// A step and the person who does it.
#[repr(C)]
#[derive(Clone, Copy, PartialEq, Eq, Hash, Debug)]
pub struct Move {
    pub step: u8,
    pub person: u8,
}

/// Is the file good?
pub fn judge(file: &[u8]) -> Result<(), Refusal> {
    let mut raw = ffi::Answer::default();
    // SAFETY: the file is lent for its whole length, and the answer is this function's own.
    unsafe { ffi::rodcrank_judge(file.as_ptr(), file.len(), &mut raw) };
    refused(&raw)
}

/// Is there a plan? The first one, its persons step by step.
pub fn plan(file: &[u8], limit: u32) -> Answer<Option<Vec<u8>>> {
    let mut raw = ffi::Answer::default();
    // SAFETY: the file is lent for its whole length, and the answer is this function's own.
    unsafe { ffi::rodcrank_plan(file.as_ptr(), file.len(), limit, &mut raw) };
    ended(&raw, |raw| match raw.said {
        ffi::YES => Some(raw.plan.iter().take(raw.steps as usize).map(|v| *v as u8).collect()),
        _ => None,
    })
}

// A verdict, asked of one of C's functions.
fn asked(question: unsafe extern "C" fn(*const u8, usize, u32, u32, *mut ffi::Answer), file: &[u8], t: u32, limit: u32) -> Answer<Verdict> {
    let mut raw = ffi::Answer::default();
    // SAFETY: the file is lent for its whole length, and the answer is this function's own.
    unsafe { question(file.as_ptr(), file.len(), t, limit, &mut raw) };
    ended(&raw, verdict)
}

/// Is there a plan without any set of at most t people? A no shows the first set without one.
pub fn static_verdict(file: &[u8], t: u32, limit: u32) -> Answer<Verdict> {
    asked(ffi::rodcrank_static, file, t, limit)
}

/// Does the desk win where before each step the absent may become more, never above t over the whole job? A no shows the first-round set.
pub fn decremental_verdict(file: &[u8], t: u32, limit: u32) -> Answer<Verdict> {
    asked(ffi::rodcrank_decremental, file, t, limit)
}

/// Does the desk win where at most once, before one of the steps, at most t people go and stay away? A no shows the first-round strike, nobody for a
/// pass.
pub fn one_shot_verdict(file: &[u8], t: u32, limit: u32) -> Answer<Verdict> {
    asked(ffi::rodcrank_one_shot, file, t, limit)
}

/// Does the desk win where any set of at most t people is away in each round? A no shows the good people at the start.
pub fn dynamic_verdict(file: &[u8], t: u32, limit: u32) -> Answer<Verdict> {
    asked(ffi::rodcrank_dynamic, file, t, limit)
}

/// The next step, and the lowest present person whose placing there leaves a good position; none where nobody's does.
pub fn advice(file: &[u8], position: &[Move], t: u32, absent: People, limit: u32) -> Answer<Option<Move>> {
    let bytes = pairs(position);
    let mut raw = ffi::Answer::default();
    // SAFETY: the file and the pairs are lent for their whole lengths, and the answer is this function's own.
    unsafe { ffi::rodcrank_advice(file.as_ptr(), file.len(), bytes.as_ptr(), bytes.len(), t, absent.low, absent.high, limit, &mut raw) };
    ended(&raw, |raw| match raw.said {
        ffi::NAMED => Some(Move { step: raw.step as u8, person: raw.person as u8 }),
        _ => None,
    })
}

/// All people whose placing leaves a good position, if they are at most t; none where they are more.
pub fn away(file: &[u8], position: &[Move], t: u32, limit: u32) -> Answer<Option<People>> {
    let bytes = pairs(position);
    let mut raw = ffi::Answer::default();
    // SAFETY: the file and the pairs are lent for their whole lengths, and the answer is this function's own.
    unsafe { ffi::rodcrank_away(file.as_ptr(), file.len(), bytes.as_ptr(), bytes.len(), t, limit, &mut raw) };
    ended(&raw, |raw| match raw.said {
        ffi::NAMED => Some(people(raw)),
        _ => None,
    })
}

/// The text that the program `verdicts` writes for this input: t (2 bytes), limit (4 bytes), a file.
pub fn verdicts(input: &[u8]) -> Vec<u8> {
    let mut text = vec![0; TEXT];
    loop {
        // SAFETY: the input and the text are lent for their whole lengths, and the text is this function's own.
        let len = unsafe { ffi::rodcrank_verdicts(input.as_ptr(), input.len(), text.as_mut_ptr(), text.len()) };
        if len <= text.len() {
            text.truncate(len);
            return text;
        }
        text.resize(len, 0); // a later library, whose longest text is longer
    }
}

/// A position as the C interface takes it.
fn pairs(position: &[Move]) -> &[u8] {
    // SAFETY: a move is two bytes, step and person in this order, and the bytes live as long as the position.
    unsafe { std::slice::from_raw_parts(position.as_ptr().cast(), 2 * position.len()) }
}

fn refused(raw: &ffi::Answer) -> Result<(), Refusal> {
    match raw.refused {
        0 => Ok(()),
        number => Err(Refusal { number, place: raw.place }),
    }
}

fn ended<T>(raw: &ffi::Answer, got: impl Fn(&ffi::Answer) -> T) -> Answer<T> {
    refused(raw)?;
    let trials = raw.trials as u32;
    Ok(match raw.said {
        ffi::LIMIT => Search::Limit { trials },
        _ => Search::Ended { got: got(raw), trials },
    })
}

fn verdict(raw: &ffi::Answer) -> Verdict {
    match raw.said {
        ffi::YES => Verdict::Yes,
        _ => Verdict::No { shown: people(raw) },
    }
}

fn people(raw: &ffi::Answer) -> People {
    People { low: raw.people[0], high: raw.people[1] }
}
