//! The same questions in plain Rust, written from the scope and sharing nothing with the library but the types of answers: bitmask rows, rules indexed by the
//! step that completes them, one person after the other. What the library is compared with, in answers and in speed.
#![allow(dead_code)]
pub mod cases;
use rodcrank::{Answer, Move, People, Refusal, Search, Verdict};

#[derive(Clone, Copy)]
struct Rule {
    form: u8,
    relation: u8,
    step: u8,
    group: u8,
}

pub struct Plain {
    people: u32,
    steps: usize,
    allowed: [u32; 8],
    rows: [[u32; 32]; 8],
    due: [Vec<Rule>; 8],
}

struct OverLimit;

/// Trials used, and the limit.
struct Count {
    used: u32,
    limit: u32,
}

impl Count {
    #[inline]
    fn trial(&mut self) -> Result<(), OverLimit> {
        if self.used == self.limit {
            return Err(OverLimit);
        }
        self.used += 1;
        Ok(())
    }
}

fn refuse<T>(number: u64, place: usize) -> Result<T, Refusal> {
    Err(Refusal { number, place: place as u64 })
}

fn word(file: &[u8], at: usize) -> usize {
    file[at] as usize + 256 * file[at + 1] as usize
}

impl Plain {
    /// Judges a file by 1 to 11 and reads it.
    pub fn read(file: &[u8]) -> Result<Plain, Refusal> {
        if file.len() < 24 {
            return refuse(1, 0);
        }
        if word(file, 0) != 1 {
            return refuse(2, 0);
        }
        if word(file, 22) != 0 {
            return refuse(3, 0);
        }
        let (people, steps, roles) = (word(file, 2), word(file, 4), word(file, 6));
        let (tables, rules) = (word(file, 8), word(file, 10));
        if people > 32 || steps > 8 || roles > 16 || tables > 6 || rules > 32 {
            return refuse(4, 0);
        }
        let steps_at = 24 + 2 * people;
        let tables_at = steps_at + 4 * steps;
        let rules_at = tables_at + 4 * tables * people;
        let total = rules_at + 4 * rules;
        let offsets = [24, steps_at, tables_at, rules_at, total];
        if (0..5).any(|i| word(file, 12 + 2 * i) != offsets[i]) {
            return refuse(5, 0);
        }
        if file.len() != total {
            return refuse(6, 0);
        }
        for u in 0..people {
            if word(file, 24 + 2 * u) >> roles != 0 {
                return refuse(7, 24 + 2 * u);
            }
        }
        for s in 0..steps {
            if word(file, steps_at + 4 * s) >> roles != 0 {
                return refuse(8, steps_at + 4 * s);
            }
        }
        for s in 0..steps {
            let entry = &file[steps_at + 4 * s..][..4];
            if entry[2] >> s != 0 || entry[3] != 0 {
                return refuse(9, steps_at + 4 * s);
            }
        }
        let row = |i: usize| u32::from_le_bytes([0, 1, 2, 3].map(|b| file[tables_at + 4 * i + b]));
        for i in 0..tables * people {
            if u64::from(row(i)) >> people != 0 {
                return refuse(10, tables_at + 4 * i);
            }
        }
        let rule = |i: usize| {
            let e = &file[rules_at + 4 * i..][..4];
            Rule { form: e[0], relation: e[1], step: e[2], group: e[3] }
        };
        for i in 0..rules {
            let r = rule(i);
            let size = r.group.count_ones();
            let good_size = if r.form == 1 { size == 1 } else { size >= 1 };
            let known = (r.relation as usize) < tables + 2 && (r.step as usize) < steps && u32::from(r.group) >> steps == 0;
            if !(1..=3).contains(&r.form) || !known || !good_size {
                return refuse(11, rules_at + 4 * i);
            }
        }

        let mut plain = Plain { people: people as u32, steps, allowed: [0; 8], rows: [[0; 32]; 8], due: Default::default() };
        for s in 0..steps {
            for u in 0..people {
                if word(file, 24 + 2 * u) & word(file, steps_at + 4 * s) != 0 {
                    plain.allowed[s] |= 1 << u;
                }
            }
        }
        for u in 0..32 {
            plain.rows[0][u] = 1 << u;
            plain.rows[1][u] = !(1 << u);
        }
        for k in 0..tables {
            for u in 0..people {
                plain.rows[2 + k][u] = row(k * people + u);
            }
        }
        for i in 0..rules {
            let r = rule(i);
            let last = (7 - r.group.leading_zeros() as u8).max(r.step);
            plain.due[last as usize].push(r);
        }
        Ok(plain)
    }

    /// Does every rule hold that step `at` completes?
    #[inline]
    fn keeps(&self, who: &[u8; 8], at: usize) -> bool {
        self.due[at].iter().all(|r| {
            let row = self.rows[r.relation as usize][who[r.step as usize] as usize];
            let mut group = r.group;
            if r.form == 2 {
                while group != 0 {
                    if row >> who[group.trailing_zeros() as usize] & 1 != 0 {
                        return true;
                    }
                    group &= group - 1;
                }
                false
            } else {
                while group != 0 {
                    if row >> who[group.trailing_zeros() as usize] & 1 == 0 {
                        return false;
                    }
                    group &= group - 1;
                }
                true
            }
        })
    }

    fn plan_from(&self, absent: u32, who: &mut [u8; 8], at: usize, n: &mut Count) -> Result<bool, OverLimit> {
        if at == self.steps {
            return Ok(true);
        }
        let mut left = self.allowed[at] & !absent;
        while left != 0 {
            who[at] = left.trailing_zeros() as u8;
            left &= left - 1;
            n.trial()?;
            if self.keeps(who, at) && self.plan_from(absent, who, at + 1, n)? {
                return Ok(true);
            }
        }
        Ok(false)
    }

    /// More than t people are good: none; else who is.
    fn good_from(&self, t: u32, who: &mut [u8; 8], at: usize, n: &mut Count) -> Result<Option<u32>, OverLimit> {
        if at == self.steps {
            return Ok(None);
        }
        let mut left = self.allowed[at];
        let (mut shown, mut found) = (0, 0);
        while left != 0 {
            let v = left.trailing_zeros();
            who[at] = v as u8;
            left &= left - 1;
            n.trial()?;
            if self.keeps(who, at) && self.good_from(t, who, at + 1, n)?.is_none() {
                shown |= 1 << v;
                found += 1;
                if found > t {
                    return Ok(None);
                }
            }
        }
        Ok(Some(shown))
    }

    /// The set with which the away side beats the desk, if there is one.
    fn beaten_from(&self, t: u32, away: u32, who: &mut [u8; 8], at: usize, n: &mut Count) -> Result<Option<u32>, OverLimit> {
        if at == self.steps {
            return Ok(None);
        }
        let mut set = Some(away);
        while let Some(a) = set {
            if !self.desk_from(t, a, who, at, n)? {
                return Ok(Some(a));
            }
            set = next_set(self.people, t, away, a);
        }
        Ok(None)
    }

    fn desk_from(&self, t: u32, away: u32, who: &mut [u8; 8], at: usize, n: &mut Count) -> Result<bool, OverLimit> {
        let mut left = self.allowed[at] & !away;
        while left != 0 {
            who[at] = left.trailing_zeros() as u8;
            left &= left - 1;
            n.trial()?;
            if self.keeps(who, at) && self.beaten_from(t, away, who, at + 1, n)?.is_none() {
                return Ok(true);
            }
        }
        Ok(false)
    }

    /// The first set in whose absence the position cannot be completed, if there is one.
    fn unplanned_from(&self, t: u32, who: &mut [u8; 8], at: usize, n: &mut Count) -> Result<Option<u32>, OverLimit> {
        let mut set = if at == self.steps { None } else { Some(0) };
        while let Some(a) = set {
            if !self.plan_from(a, who, at, n)? {
                return Ok(Some(a));
            }
            set = next_set(self.people, t, 0, a);
        }
        Ok(None)
    }

    /// What the away side that has not struck does to beat the desk, if it can: the set it strikes with, or for a pass the empty one.
    fn struck_from(&self, t: u32, who: &mut [u8; 8], at: usize, n: &mut Count) -> Result<Option<u32>, OverLimit> {
        if at == self.steps {
            return Ok(None);
        }
        if !self.passed_from(t, who, at, n)? {
            return Ok(Some(0));
        }
        self.unplanned_from(t, who, at, n)
    }

    fn passed_from(&self, t: u32, who: &mut [u8; 8], at: usize, n: &mut Count) -> Result<bool, OverLimit> {
        let mut left = self.allowed[at];
        while left != 0 {
            who[at] = left.trailing_zeros() as u8;
            left &= left - 1;
            n.trial()?;
            if self.keeps(who, at) && self.struck_from(t, who, at + 1, n)?.is_none() {
                return Ok(true);
            }
        }
        Ok(false)
    }

    /// 13: the position, in pairs of step and person. Its length, and its persons.
    fn start_at(&self, position: &[u8]) -> Result<(usize, [u8; 8]), Refusal> {
        let pairs = position.chunks(2);
        if pairs.len() >= self.steps {
            return refuse(13, self.steps);
        }
        let mut who = [0; 8];
        for (at, pair) in pairs.enumerate() {
            match *pair {
                [step, v] if usize::from(step) == at && u32::from(v) < self.people && self.allowed[at] >> v & 1 == 1 => who[at] = v,
                _ => return refuse(13, at),
            }
            if !self.keeps(&who, at) {
                return refuse(13, at);
            }
        }
        Ok((position.len() / 2, who))
    }
}

/// The next set of at most t of n people that contains `held`, in ascending number.
pub fn next_set(n: u32, t: u32, held: u32, set: u32) -> Option<u32> {
    let free = set & !held;
    let step = if set.count_ones() < t { 1 } else { free & free.wrapping_neg() };
    let next = u64::from(set) + u64::from(step) | u64::from(held);
    if step == 0 || next >> n != 0 {
        None
    } else {
        Some(next as u32)
    }
}

fn end<T>(limit: u32, walk: impl FnOnce(&mut Count) -> Result<T, OverLimit>) -> Search<T> {
    let mut n = Count { used: 0, limit };
    match walk(&mut n) {
        Ok(got) => Search::Ended { got, trials: n.used },
        Err(OverLimit) => Search::Limit { trials: limit },
    }
}

fn people(set: u32) -> People {
    People { low: u64::from(set), high: 0 }
}

fn verdict(shown: Option<u32>) -> Verdict {
    shown.map_or(Verdict::Yes, |set| Verdict::No { shown: people(set) })
}

fn asked(file: &[u8], t: u32) -> Result<Plain, Refusal> {
    let plain = Plain::read(file)?;
    if t > 32 {
        return refuse(12, 0);
    }
    Ok(plain)
}

pub fn judge(file: &[u8]) -> Result<(), Refusal> {
    Plain::read(file).map(|_| ())
}

pub fn plan(file: &[u8], limit: u32) -> Answer<Option<Vec<u8>>> {
    let plain = Plain::read(file)?;
    let mut who = [0; 8];
    Ok(end(limit, |n| {
        let found = plain.plan_from(0, &mut who, 0, n)?;
        Ok(if found { Some(who[..plain.steps].to_vec()) } else { None })
    }))
}

pub fn static_verdict(file: &[u8], t: u32, limit: u32) -> Answer<Verdict> {
    let plain = asked(file, t)?;
    Ok(end(limit, |n| plain.unplanned_from(t, &mut [0; 8], 0, n).map(verdict)))
}

pub fn decremental_verdict(file: &[u8], t: u32, limit: u32) -> Answer<Verdict> {
    let plain = asked(file, t)?;
    Ok(end(limit, |n| plain.beaten_from(t, 0, &mut [0; 8], 0, n).map(verdict)))
}

pub fn one_shot_verdict(file: &[u8], t: u32, limit: u32) -> Answer<Verdict> {
    let plain = asked(file, t)?;
    Ok(end(limit, |n| plain.struck_from(t, &mut [0; 8], 0, n).map(verdict)))
}

pub fn dynamic_verdict(file: &[u8], t: u32, limit: u32) -> Answer<Verdict> {
    let plain = asked(file, t)?;
    Ok(end(limit, |n| plain.good_from(t, &mut [0; 8], 0, n).map(verdict)))
}

/// The position is bytes, in pairs of step and person.
pub fn advice(file: &[u8], position: &[u8], t: u32, absent: People, limit: u32) -> Answer<Option<Move>> {
    let plain = asked(file, t)?;
    let (at, mut who) = plain.start_at(position)?;
    if absent.iter().any(|v| u32::from(v) >= plain.people) || absent.len() > t {
        return refuse(14, 0);
    }
    Ok(end(limit, |n| {
        let mut left = plain.allowed[at] & !(absent.low as u32);
        while left != 0 {
            who[at] = left.trailing_zeros() as u8;
            left &= left - 1;
            n.trial()?;
            if plain.keeps(&who, at) && plain.good_from(t, &mut who, at + 1, n)?.is_none() {
                return Ok(Some(Move { step: at as u8, person: who[at] }));
            }
        }
        Ok(None)
    }))
}

pub fn away(file: &[u8], position: &[u8], t: u32, limit: u32) -> Answer<Option<People>> {
    let plain = asked(file, t)?;
    let (at, mut who) = plain.start_at(position)?;
    Ok(end(limit, |n| Ok(plain.good_from(t, &mut who, at, n)?.map(people))))
}

/// The text of the program `verdicts`.
pub fn verdicts(input: &[u8]) -> Vec<u8> {
    let file = input.get(6..).unwrap_or(&[]);
    let t = u32::from(input.get(0).copied().unwrap_or(0)) + 256 * u32::from(input.get(1).copied().unwrap_or(0));
    let byte = |i: usize| input.get(i).copied().unwrap_or(0);
    let limit = u32::from_le_bytes([byte(2), byte(3), byte(4), byte(5)]);
    if let Err(r) = asked(file, t) {
        return format!("refused {} at {}\n", r.number, r.place).into_bytes();
    }
    let mut text = String::from("case");
    for i in 1..6 {
        text += &format!(" {}", word(file, 2 * i));
    }
    text += &format!("\nabsent {} limit {}\n", t, limit);
    text += &match plan(file, limit) {
        Ok(Search::Ended { got: Some(who), trials }) => format!("plan yes {} trials {}\n", listed(&who), trials),
        Ok(Search::Ended { got: None, trials }) => format!("plan no trials {}\n", trials),
        Ok(Search::Limit { trials }) => format!("plan limit trials {}\n", trials),
        Err(_) => unreachable!(),
    };
    let questions: [(&str, fn(&[u8], u32, u32) -> Answer<Verdict>); 4] =
        [("static", static_verdict), ("decremental", decremental_verdict), ("one-shot", one_shot_verdict), ("dynamic", dynamic_verdict)];
    for (name, ask) in questions {
        text += &match ask(file, t, limit) {
            Ok(Search::Ended { got: Verdict::Yes, trials }) => format!("{} yes trials {}\n", name, trials),
            Ok(Search::Ended { got: Verdict::No { shown }, trials }) => {
                let who: Vec<u8> = (0..32).filter(|v| shown.low >> v & 1 != 0).collect();
                format!("{} no {} trials {}\n", name, listed(&who), trials)
            }
            Ok(Search::Limit { trials }) => format!("{} limit trials {}\n", name, trials),
            Err(_) => unreachable!(),
        };
    }
    text.into_bytes()
}

fn listed(who: &[u8]) -> String {
    if who.is_empty() {
        return String::from("none");
    }
    who.iter().map(|v| v.to_string()).collect::<Vec<_>>().join(" ")
}
