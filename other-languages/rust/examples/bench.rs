//! The library against the plain Rust walk: the same files, the same process, both built for release. For each question the two take
//! turns, three each and more where they are short, and the best turn counts. Each call reads, judges and lays out its file; answers
//! and trials must be the same. No buffer is cleared or warmed before a turn but by the turns before it.
//!
//! A row is one question asked of the files of one workload. Rows whose questions take few trials each are marked, and the mean goes
//! without them. What a call costs stands in a table of its own: on the campfire, which takes a handful of trials, and on files at all
//! limits of which no trial is allowed.
//!
//! usage: bench                         all of it, timed
//!        bench count W Q SIDE [LIMIT]  one turn of one question alone, for a tool that counts instructions: workload 0 to 9,
//!                                      `campfire` or `limits`, question 0 to 6, side 0 (neither: only the files are made), 1 (library)
//!                                      or 2 (plain). Prints the turn's trials and its calls. With LIMIT no call of a workload takes
//!                                      more trials than that
#[path = "../plain/mod.rs"]
mod plain;
use plain::cases::{make, make_scarce, pigeonhole, Dice, Shape};
use rodcrank::{Answer, People, Search, Verdict};
use std::time::Instant;

/// What a turn came to: its trials; how many answers were yes (the desk can finish, or go on), no and limit; and a number that any other
/// answer would change.
#[derive(Clone, Copy, PartialEq, Debug, Default)]
struct Sum {
    trials: u64,
    yes: u32,
    no: u32,
    limit: u32,
    mark: u64,
}

impl Sum {
    fn add<T>(&mut self, answer: &Answer<T>, told: impl Fn(&T) -> (bool, u64)) {
        let (number, trials) = match answer {
            Err(r) => (1000 + r.number, 0),
            Ok(Search::Limit { trials }) => {
                self.limit += 1;
                (7, *trials)
            }
            Ok(Search::Ended { got, trials }) => {
                let (yes, number) = told(got);
                self.yes += u32::from(yes);
                self.no += u32::from(!yes);
                (number, *trials)
            }
        };
        self.trials += u64::from(trials);
        self.mark = self.mark.wrapping_mul(31).wrapping_add(number).wrapping_mul(31).wrapping_add(u64::from(trials));
    }
}

fn of_plan(plan: &Option<Vec<u8>>) -> (bool, u64) {
    (plan.is_some(), plan.as_ref().map_or(1, |who| who.iter().fold(2, |n, v| 33 * n + u64::from(*v))))
}

fn of_verdict(v: &Verdict) -> (bool, u64) {
    match v {
        Verdict::Yes => (true, 1),
        Verdict::No { shown } => (false, 2 + shown.low),
    }
}

fn of_away(set: &Option<People>) -> (bool, u64) {
    (set.is_none(), set.map_or(1, |s| 2 + s.low))
}

const QUESTIONS: [&str; 7] = ["plan", "static", "decremental", "one-shot", "dynamic", "advice", "away"];

struct Workload {
    name: &'static str,
    files: Vec<Vec<u8>>,
    t: u32,
    /// The most trials of one call.
    limit: u32,
    /// How often a turn asks each file.
    times: usize,
}

impl Workload {
    fn calls(&self) -> usize {
        self.times * self.files.len()
    }
}

/// One turn: a question asked of every file, by the library or in plain Rust.
fn turn(w: &Workload, question: usize, library: bool) -> Sum {
    let mut sum = Sum::default();
    let (t, limit) = (w.t, w.limit);
    for file in w.files.iter().cycle().take(w.calls()) {
        match question {
            0 => {
                let answer = if library { rodcrank::plan(file, limit) } else { plain::plan(file, limit) };
                sum.add(&answer, of_plan);
            }
            1..=4 => {
                let ask = match (question, library) {
                    (1, true) => rodcrank::static_verdict,
                    (1, false) => plain::static_verdict,
                    (2, true) => rodcrank::decremental_verdict,
                    (2, false) => plain::decremental_verdict,
                    (3, true) => rodcrank::one_shot_verdict,
                    (3, false) => plain::one_shot_verdict,
                    (_, true) => rodcrank::dynamic_verdict,
                    (_, false) => plain::dynamic_verdict,
                };
                sum.add(&ask(file, t, limit), of_verdict);
            }
            5 => {
                let absent = People { low: (1 << t) - 1, high: 0 };
                let answer = if library { rodcrank::advice(file, &[], t, absent, limit) } else { plain::advice(file, &[], t, absent, limit) };
                sum.add(&answer, |m| (m.is_some(), m.map_or(1, |m| 2 + u64::from(m.person))));
            }
            _ => {
                let answer = if library { rodcrank::away(file, &[], t, limit) } else { plain::away(file, &[], t, limit) };
                sum.add(&answer, of_away);
            }
        }
    }
    sum
}

const LIMIT: u32 = 1_000_000;

/// A row whose questions take fewer trials each, one with the other, is not in the mean.
const FEW: u64 = 60_000;

/// The least time in seconds that both sides' turns at one row take together.
const LEAST: f64 = 0.1;

const TIGHT: Shape = Shape { people: 32, steps: 8, roles: 16, tables: 6, rules: 32, thick: 60, held: 30, same: 0, own: 0 };

fn workloads() -> Vec<Workload> {
    let mut dice = Dice(0x5EED_0FCA_5E5D);
    let mut works = Vec::new();
    let mut add = |name, t, files| works.push(Workload { name, files, t, limit: LIMIT, times: 1 });
    let mut some = |n, shape| (0..n).map(|_| make(&mut dice, shape)).collect::<Vec<_>>();
    let few = Shape { rules: 4, thick: 80, held: 40, ..TIGHT };
    add("8 steps, 32 people, 32 rules of all forms, t = 1", 1, some(24, TIGHT));
    add("the same counts, thicker tables, many absence sets: t = 3", 3, some(24, Shape { thick: 97, held: 50, same: 1, ..TIGHT }));
    add("the same counts, fewer people a step, t = 2", 2, some(24, Shape { thick: 80, held: 20, ..TIGHT }));
    add("the same counts, tables that relate everybody, t = 2", 2, some(24, Shape { thick: 100, held: 20, ..TIGHT }));
    add("8 steps, 32 people, 4 rules, t = 3", 3, some(24, few));
    add("8 steps, 32 people, 2 rules, t = 4", 4, some(24, Shape { rules: 2, ..few }));
    add("6 steps, 12 people, 3 rules, t = 3", 3, some(24, Shape { people: 12, steps: 6, rules: 3, held: 50, ..few }));
    let scarce = Shape { people: 16, rules: 3, ..few };
    add("8 steps, 16 people, 3 of them for each step, 3 rules, t = 3", 3, (0..64).map(|_| make_scarce(&mut dice, scarce, 3)).collect());
    add("8 steps for different people, 7 people: no plan, t = 1", 1, vec![pigeonhole(true), pigeonhole(false)]);
    let wide = Shape { people: 32, ..scarce };
    add("8 steps, 32 people, 5 of them for each step, 3 rules, t = 4", 4, (0..12).map(|_| make_scarce(&mut dice, wide, 5)).collect());
    works
}

/// The smallest calls: a few trials each.
fn campfire() -> Workload {
    let file = include_bytes!("../../../examples/campfire.case").to_vec();
    Workload { name: "campfire", files: vec![file], t: 1, limit: LIMIT, times: 1000 }
}

/// Calls without a trial: files at all limits judged and laid out.
fn limits() -> Workload {
    let mut dice = Dice(0x5EED_0FCA_5E5D);
    Workload { name: "limits", files: (0..24).map(|_| make(&mut dice, TIGHT)).collect(), t: 1, limit: 0, times: 10 }
}

/// What a question came to, and the seconds of the best turn of the library and of plain Rust.
fn timed(w: &Workload, q: usize) -> (Sum, f64, f64) {
    let (mut sum, mut ours, mut theirs) = (Sum::default(), f64::MAX, f64::MAX);
    let (begin, mut turns) = (Instant::now(), 0);
    while turns < 3 || begin.elapsed().as_secs_f64() < LEAST {
        let start = Instant::now();
        sum = turn(w, q, true);
        ours = ours.min(start.elapsed().as_secs_f64());
        let start = Instant::now();
        let plain = turn(w, q, false);
        theirs = theirs.min(start.elapsed().as_secs_f64());
        assert_eq!(sum, plain, "{}, {}: the answers differ", w.name, QUESTIONS[q]);
        turns += 1;
    }
    (sum, ours, theirs)
}

/// The ratios of the rows that count, and the highest of them with its name.
#[derive(Default)]
struct Ratios {
    logs: f64,
    rows: u32,
    left_out: u32,
    highest: f64,
    name: String,
}

impl Ratios {
    fn add(&mut self, name: String, ratio: f64) {
        self.logs += ratio.ln();
        self.rows += 1;
        if ratio > self.highest {
            (self.highest, self.name) = (ratio, name);
        }
    }
}

fn rows(number: usize, w: &Workload, ratios: &mut Ratios) {
    println!("{}. {} ({} files)", number, w.name, w.files.len());
    println!("question         trials  yes   no limit     library /s  plain Rust /s   ratio");
    for (q, question) in QUESTIONS.iter().enumerate() {
        let (sum, ours, theirs) = timed(w, q);
        let (trials, ratio) = (sum.trials as f64, ours / theirs);
        let few = sum.trials < FEW * w.calls() as u64;
        if few {
            ratios.left_out += 1;
        } else {
            ratios.add(format!("{} {}", number, question), ratio);
        }
        print!("{:12} {:>10} {:>4} {:>4} {:>5}", question, sum.trials, sum.yes, sum.no, sum.limit);
        println!(" {:>14.0} {:>14.0} {:>7.2}{}", trials / ours, trials / theirs, ratio, if few { " few" } else { "" });
    }
    println!();
}

/// What a call costs, in microseconds.
fn calls() {
    println!("microseconds a call       campfire, t = 1      at all limits, no trial");
    println!("question             library   plain Rust         library   plain Rust");
    for (q, question) in QUESTIONS.iter().enumerate() {
        print!("{:12}", question);
        for w in [campfire(), limits()] {
            let (sum, ours, theirs) = timed(&w, q);
            assert!(w.limit > 0 || sum.limit as usize == w.calls(), "{}: an answer without a trial", question);
            let each = 1e6 / w.calls() as f64;
            print!("    {:>12.2} {:>12.2}", ours * each, theirs * each);
        }
        println!();
    }
    println!();
}

/// `count W Q SIDE [LIMIT]`
fn count(words: &[String]) {
    let number = |i: usize| words[i].parse::<usize>().expect("a number");
    let mut w = match words[0].as_str() {
        "campfire" => campfire(),
        "limits" => limits(),
        _ => workloads().swap_remove(number(0)),
    };
    if words.len() > 3 {
        w.limit = w.limit.min(number(3) as u32);
    }
    if number(2) > 0 {
        println!("{} {}", turn(&w, number(1), number(2) == 1).trials, w.calls());
    }
}

fn main() {
    let args: Vec<String> = std::env::args().collect();
    if args.len() >= 5 && args[1] == "count" {
        return count(&args[2..]);
    }
    let mut ratios = Ratios::default();
    for (i, w) in workloads().iter().enumerate() {
        rows(i + 1, w, &mut ratios);
    }
    calls();
    println!("few: fewer than {} trials a question; {} such rows are not counted", FEW, ratios.left_out);
    println!("highest ratio of the {} rows that count: {:.2} ({})", ratios.rows, ratios.highest, ratios.name);
    println!("time of the library over time of plain Rust, geometric mean: {:.2}", (ratios.logs / f64::from(ratios.rows)).exp());
}
