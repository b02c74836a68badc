//! Calls every exported function, through the C interface and through the safe functions, and compares both with the plain Rust walk, on good and
//! damaged inputs, long and short. ROUNDS in the environment says on how many.
#[path = "../plain/mod.rs"]
mod plain;
use plain::cases::{make, Dice, Shape};
use rodcrank::{ffi, Answer, Move, People, Refusal, Search, Verdict};
use std::fmt::Debug;

/// A case of any size, mostly small enough that every walk ends.
fn shape(dice: &mut Dice) -> Shape {
    let large = dice.one_in(8);
    let steps = dice.below(if large { 9 } else { 5 });
    Shape {
        people: dice.below(if large { 33 } else { 7 }),
        steps,
        roles: dice.below(17),
        tables: dice.below(7),
        rules: if steps == 0 { 0 } else { dice.below(if large { 33 } else { 9 }) },
        thick: [20, 50, 80, 95][dice.below(4) as usize],
        held: [10, 30, 60, 90][dice.below(4) as usize],
        same: [0, 5, 30][dice.below(3) as usize],
        own: [0, 10, 100][dice.below(3) as usize],
    }
}

/// Damages a file: cut, lengthened, or a few bytes changed, most often in its header.
fn damage(dice: &mut Dice, file: &mut Vec<u8>) {
    match dice.below(6) {
        0 => file.truncate(dice.below(file.len() as u32 + 1) as usize),
        1 => (0..=dice.below(3)).for_each(|_| file.push(dice.next() as u8)),
        2 => *file = (0..dice.below(1100)).map(|_| dice.next() as u8).collect(),
        _ => {
            for _ in 0..=dice.below(2) {
                let end = if dice.one_in(2) { 24 } else { file.len() as u32 };
                let at = dice.below(end) as usize;
                file[at] = match dice.below(3) {
                    0 => dice.next() as u8,
                    1 => file[at] ^ 1 << dice.below(8),
                    _ => file[at].wrapping_add(1),
                };
            }
        }
    }
}

/// What happened, so that a run shows that no kind of answer was left out.
#[derive(Default)]
struct Seen {
    calls: u64,
    refused: [u64; 16],
    limits: u64,
    yes: u64,
    no: u64,
    trials: u64,
}

/// Both answers, which must be the same; the answer, where the caller goes on with it.
fn same<T: PartialEq + Debug>(seen: &mut Seen, what: &str, file: &[u8], ours: T, theirs: T) -> T {
    seen.calls += 1;
    assert!(ours == theirs, "{}: the library says {:?}, plain Rust {:?}, for {:?}", what, ours, theirs, file);
    ours
}

fn count<T>(seen: &mut Seen, answer: &Answer<T>, yes: impl Fn(&T) -> bool) -> Option<u32> {
    match answer {
        Err(r) => seen.refused[r.number as usize] += 1,
        Ok(Search::Limit { .. }) => seen.limits += 1,
        Ok(Search::Ended { got, trials }) => {
            if yes(got) {
                seen.yes += 1
            } else {
                seen.no += 1
            }
            seen.trials += u64::from(*trials);
            return Some(*trials);
        }
    }
    None
}

// What the C interface must write, field by field. What an answer does not have is 0.

fn refused(r: &Refusal) -> ffi::Answer {
    ffi::Answer { refused: r.number, place: r.place, ..Default::default() }
}

fn told<T>(answer: &Answer<T>, got: impl Fn(&T) -> ffi::Answer) -> ffi::Answer {
    match answer {
        Err(r) => refused(r),
        Ok(Search::Limit { trials }) => ffi::Answer { said: ffi::LIMIT, trials: u64::from(*trials), ..Default::default() },
        Ok(Search::Ended { got: it, trials }) => ffi::Answer { trials: u64::from(*trials), ..got(it) },
    }
}

fn said(said: u64) -> ffi::Answer {
    ffi::Answer { said, ..Default::default() }
}

fn planned(plan: &Option<Vec<u8>>) -> ffi::Answer {
    let Some(who) = plan else { return said(ffi::NO) };
    let mut plan = [0; 8];
    who.iter().enumerate().for_each(|(s, v)| plan[s] = u64::from(*v));
    ffi::Answer { steps: who.len() as u64, plan, ..said(ffi::YES) }
}

fn shown(what: u64, people: &People) -> ffi::Answer {
    ffi::Answer { people: [people.low, people.high], ..said(what) }
}

fn verdict(v: &Verdict) -> ffi::Answer {
    match v {
        Verdict::Yes => said(ffi::YES),
        Verdict::No { shown: set } => shown(ffi::NO, set),
    }
}

fn advised(m: &Option<Move>) -> ffi::Answer {
    match m {
        None => said(ffi::NOBODY),
        Some(m) => ffi::Answer { step: u64::from(m.step), person: u64::from(m.person), ..said(ffi::NAMED) },
    }
}

fn kept_away(set: &Option<People>) -> ffi::Answer {
    set.map_or(said(ffi::NOBODY), |set| shown(ffi::NAMED, &set))
}

/// An answer that is full of something else before the call.
fn raw(call: impl FnOnce(*mut ffi::Answer)) -> ffi::Answer {
    let junk = ffi::Answer { refused: 77, place: 77, said: 77, trials: 77, people: [77; 2], step: 77, person: 77, way: 77, steps: 77, plan: [77; 8] };
    let mut answer = junk;
    call(&mut answer);
    answer
}

/// Bytes as C has them: of none, NULL.
fn lent(bytes: &[u8]) -> *const u8 {
    if bytes.is_empty() {
        std::ptr::null()
    } else {
        bytes.as_ptr()
    }
}

type Question = fn(&[u8], u32, u32) -> Answer<Verdict>;
type RawQuestion = unsafe extern "C" fn(*const u8, usize, u32, u32, *mut ffi::Answer);

fn compare(dice: &mut Dice, seen: &mut Seen, file: &[u8]) {
    let (f, n) = (lent(file), file.len());
    let judged = same(seen, "judge", file, rodcrank::judge(file), plain::judge(file));
    if let Err(r) = judged {
        seen.refused[r.number as usize] += 1;
    }
    // SAFETY: what is lent is readable for its whole length, or NULL with length 0; the answer is this call's own.
    let ours = raw(|a| unsafe { ffi::rodcrank_judge(f, n, a) });
    same(seen, "judge in C", file, ours, judged.map_or_else(|r| refused(&r), |()| said(ffi::YES)));
    let t = [0, 1, 2, 3, 4, 32, 33, dice.next()][dice.below(8) as usize];
    let limit = [0, 1, dice.below(50), 2000, 20000][dice.below(5) as usize];

    let plan = same(seen, "plan", file, rodcrank::plan(file, limit), plain::plan(file, limit));
    // SAFETY: what is lent is readable for its whole length, or NULL with length 0; the answer is this call's own.
    let ours = raw(|a| unsafe { ffi::rodcrank_plan(f, n, limit, a) });
    same(seen, "plan in C", file, ours, told(&plan, planned));
    if let Some(trials) = count(seen, &plan, |p| p.is_some()) {
        let _ = same(seen, "plan at its trials", file, rodcrank::plan(file, trials), plan);
        if trials > 0 {
            let _ = same(seen, "plan one below", file, rodcrank::plan(file, trials - 1), Ok(Search::Limit { trials: trials - 1 }));
        }
    }
    let questions: [(&str, Question, Question, RawQuestion); 4] = [
        ("static", rodcrank::static_verdict, plain::static_verdict, ffi::rodcrank_static),
        ("decremental", rodcrank::decremental_verdict, plain::decremental_verdict, ffi::rodcrank_decremental),
        ("one-shot", rodcrank::one_shot_verdict, plain::one_shot_verdict, ffi::rodcrank_one_shot),
        ("dynamic", rodcrank::dynamic_verdict, plain::dynamic_verdict, ffi::rodcrank_dynamic),
    ];
    for (name, ours, theirs, in_c) in questions {
        let answer = same(seen, name, file, ours(file, t, limit), theirs(file, t, limit));
        // SAFETY: what is lent is readable for its whole length, or NULL with length 0; the answer is this call's own.
        same(seen, name, file, raw(|a| unsafe { in_c(f, n, t, limit, a) }), told(&answer, verdict));
        if let Some(trials) = count(seen, &answer, |v| *v == Verdict::Yes) {
            let _ = same(seen, name, file, ours(file, t, trials), answer);
            if trials > 0 {
                let _ = same(seen, name, file, ours(file, t, trials - 1), Ok(Search::Limit { trials: trials - 1 }));
            }
        }
    }
    play(dice, seen, file, t, limit, judged.is_ok());

    let mut input = Vec::from((t as u16).to_le_bytes());
    input.extend_from_slice(&limit.to_le_bytes());
    input.extend_from_slice(file);
    if dice.one_in(20) {
        input.truncate(dice.below(7) as usize);
    }
    let text = same(seen, "verdicts", file, rodcrank::verdicts(&input), plain::verdicts(&input));
    let room = dice.below(600) as usize;
    let mut buffer = vec![7; room];
    // SAFETY: what is lent is readable for its whole length, or NULL with length 0; the text is this call's own.
    let length = unsafe { ffi::rodcrank_verdicts(lent(&input), input.len(), buffer.as_mut_ptr(), room) };
    let mut left = vec![7; room];
    if text.len() <= room {
        left[..text.len()].copy_from_slice(&text);
    }
    same(seen, "verdicts in C", file, (length, buffer), (text.len(), left));
}

/// A position played by advice, a few times with something else in it, and at times too long or with a byte too many.
fn play(dice: &mut Dice, seen: &mut Seen, file: &[u8], t: u32, limit: u32, good: bool) {
    let people = if file.len() > 2 { u32::from(file[2]) } else { 0 };
    let mut position = Vec::new();
    for step in 0..9 {
        let advised = ask(dice, seen, file, &position, people, t, limit);
        let (step, person) = match advised {
            Ok(Search::Ended { got: Some(m), .. }) if !dice.one_in(5) => (m.step, m.person),
            _ => (step, dice.below(people + 1) as u8),
        };
        position.push(Move { step: if dice.one_in(30) { dice.below(9) as u8 } else { step }, person });
        if !good {
            break;
        }
    }
    if dice.one_in(10) {
        position.resize(dice.below(300) as usize, Move { step: 0, person: 0 });
        let _ = ask(dice, seen, file, &position, people, t, limit);
    }
}

/// Advice and away at a position, and with one byte cut off or behind it.
fn ask(dice: &mut Dice, seen: &mut Seen, file: &[u8], position: &[Move], people: u32, t: u32, limit: u32) -> Answer<Option<Move>> {
    let known = ((1u64 << people.min(32)) - 1) as u32;
    let some = u64::from(dice.next() & dice.next() & dice.next());
    let absent = match dice.below(9) {
        0 => People { low: some, high: 0 },
        1 => People { low: 0, high: 1 << dice.below(64) },
        2 => People { low: 1 << dice.below(64), high: 0 },
        3 | 4 => People { low: some & u64::from(known), high: 0 },
        _ => People::NONE,
    };
    let mut bytes: Vec<u8> = position.iter().flat_map(|m| [m.step, m.person]).collect();
    let advice = plain::advice(file, &bytes, t, absent, limit);
    let away = plain::away(file, &bytes, t, limit);
    count(seen, &advice, |p| p.is_some());
    count(seen, &away, |p| p.is_none());
    let _ = same(seen, "advice", file, rodcrank::advice(file, position, t, absent, limit), advice.clone());
    let _ = same(seen, "away", file, rodcrank::away(file, position, t, limit), away);
    if dice.one_in(3) {
        bytes.push(dice.below(9) as u8);
    } else if dice.one_in(2) {
        bytes.pop();
    }
    let (f, n, p, m) = (lent(file), file.len(), lent(&bytes), bytes.len());
    // SAFETY: what is lent is readable for its whole length, or NULL with length 0; the answer is this call's own.
    let ours = raw(|a| unsafe { ffi::rodcrank_advice(f, n, p, m, t, absent.low, absent.high, limit, a) });
    same(seen, "advice in C", file, ours, told(&plain::advice(file, &bytes, t, absent, limit), advised));
    // SAFETY: what is lent is readable for its whole length, or NULL with length 0; the answer is this call's own.
    let ours = raw(|a| unsafe { ffi::rodcrank_away(f, n, p, m, t, limit, a) });
    same(seen, "away in C", file, ours, told(&plain::away(file, &bytes, t, limit), kept_away));
    advice
}

/// The sets of at most t of n people that contain `held`, by trying all numbers.
#[test]
fn sets_agree() {
    for n in 0..9u32 {
        for t in 0..5 {
            for held in (0..1u32 << n).filter(|h| h.count_ones() <= t) {
                let all: Vec<u32> = (held..1 << n).filter(|a| a & held == held && a.count_ones() <= t).collect();
                let mut walked = vec![held];
                while let Some(next) = plain::next_set(n, t, held, walked[walked.len() - 1]) {
                    walked.push(next);
                }
                assert_eq!(all, walked);
            }
        }
    }
}

#[test]
fn a_set_lists_its_members() {
    let set: People = [70, 3, 127, 3, 64, 200].into_iter().collect();
    assert_eq!(set, People { low: 1 << 3, high: 1 | 1 << 6 | 1 << 63 });
    assert_eq!((set.to_string().as_str(), set.len()), ("3 64 70 127", 4));
    assert_eq!(People::NONE.to_string(), "none");
}

#[test]
fn an_answer_has_18_numbers() {
    assert_eq!(std::mem::size_of::<ffi::Answer>(), 18 * std::mem::size_of::<u64>());
}

#[test]
fn a_refusal_says_what_it_means() {
    let refusal = rodcrank::judge(b"no case").unwrap_err();
    assert_eq!(refusal.to_string(), "refused 1 at 0: fewer than 24 bytes");
}

#[test]
fn every_call_agrees() {
    let rounds: u32 = std::env::var("ROUNDS").map_or(4000, |n| n.parse().expect("a number of rounds"));
    let mut dice = Dice(0x0DDB_1A5E_5BAD_5EED);
    let mut seen = Seen::default();
    for round in 0..rounds {
        let shape = shape(&mut dice);
        let mut file = make(&mut dice, shape);
        if round % 3 == 2 {
            damage(&mut dice, &mut file);
        }
        compare(&mut dice, &mut seen, &file);
    }
    println!("{} inputs, {} calls compared: the same", rounds, seen.calls);
    println!("{} yes, {} no, {} limit, {} trials", seen.yes, seen.no, seen.limits, seen.trials);
    let refused: Vec<String> = (1..15).map(|n| format!("{}: {}", n, seen.refused[n])).collect();
    println!("refused {}", refused.join(", "));
    for n in 1..15 {
        assert!(rounds < 4000 || seen.refused[n] > 0, "no input was refused {}", n);
    }
}
