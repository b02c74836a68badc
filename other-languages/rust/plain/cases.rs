//! Cases for the test and the benchmark: all but the pigeonhole are made by a generator with a fixed seed.

/// A small generator of numbers (xorshift64*).
pub struct Dice(pub u64);

impl Dice {
    pub fn next(&mut self) -> u32 {
        self.0 ^= self.0 >> 12;
        self.0 ^= self.0 << 25;
        self.0 ^= self.0 >> 27;
        (self.0.wrapping_mul(0x2545_F491_4F6C_DD1D) >> 32) as u32
    }

    /// A number below n, 0 where n is 0.
    pub fn below(&mut self, n: u32) -> u32 {
        if n == 0 {
            0
        } else {
            self.next() % n
        }
    }

    /// One in n.
    pub fn one_in(&mut self, n: u32) -> bool {
        self.below(n) == 0
    }
}

/// What a case is made with: its counts; how many of 100 pairs are in a table, roles are held, and rules say "same person";
/// and how many of 100 rules may have s itself in X.
#[derive(Clone, Copy)]
pub struct Shape {
    pub people: u32,
    pub steps: u32,
    pub roles: u32,
    pub tables: u32,
    pub rules: u32,
    pub thick: u32,
    pub held: u32,
    pub same: u32,
    pub own: u32,
}

fn put(file: &mut Vec<u8>, numbers: &[u32]) {
    for n in numbers {
        file.extend_from_slice(&(*n as u16).to_le_bytes());
    }
}

/// The header of a file with these counts.
fn header(s: Shape) -> Vec<u8> {
    let steps_at = 24 + 2 * s.people;
    let tables_at = steps_at + 4 * s.steps;
    let rules_at = tables_at + 4 * s.tables * s.people;
    let total = rules_at + 4 * s.rules;
    let mut file = Vec::new();
    put(&mut file, &[1, s.people, s.steps, s.roles, s.tables, s.rules, 24, steps_at, tables_at, rules_at, total, 0]);
    file
}

/// A good file of this shape.
pub fn make(dice: &mut Dice, s: Shape) -> Vec<u8> {
    let mut file = header(s);
    let some = |dice: &mut Dice, n: u32, of100: u32| (0..n).fold(0u32, |set, i| set | ((dice.below(100) < of100) as u32) << i);
    for _ in 0..s.people {
        let held = some(dice, s.roles, s.held);
        put(&mut file, &[held]);
    }
    for i in 0..s.steps {
        let roles = some(dice, s.roles, s.held);
        put(&mut file, &[roles, some(dice, i, 30)]);
    }
    for _ in 0..s.tables * s.people {
        file.extend_from_slice(&some(dice, s.people, s.thick).to_le_bytes());
    }
    for _ in 0..s.rules {
        let form = 1 + dice.below(3);
        let step = dice.below(s.steps);
        let mut one = dice.below(s.steps);
        let mut more = if form == 1 { 0 } else { some(dice, s.steps, 30) };
        if dice.below(100) >= s.own {
            one = if one == step { (step + 1) % s.steps } else { one };
            more &= !(1 << step);
        }
        let group = more | 1 << one;
        let relation = if dice.below(100) < s.same {
            0
        } else if s.tables == 0 || dice.one_in(2) {
            1
        } else {
            2 + dice.below(s.tables)
        };
        file.extend_from_slice(&[form as u8, relation as u8, step as u8, group as u8]);
    }
    file
}

/// A good file of this shape where each step is for a role of its own, which `each` people hold, drawn from all.
pub fn make_scarce(dice: &mut Dice, s: Shape, each: u32) -> Vec<u8> {
    let mut file = make(dice, s);
    let mut roles = vec![0; s.people as usize];
    for i in 0..s.steps {
        let mut left = each;
        while left > 0 {
            let u = dice.below(s.people) as usize;
            left -= (roles[u] >> i & 1) ^ 1;
            roles[u] |= 1 << i;
        }
    }
    let mut entries = Vec::new();
    put(&mut entries, &roles);
    file[24..][..entries.len()].copy_from_slice(&entries);
    for i in 0..s.steps {
        let at = (24 + 2 * s.people + 4 * i) as usize;
        file[at..][..2].copy_from_slice(&(1u16 << i).to_le_bytes());
    }
    file
}

/// A good file without a plan: eight steps that different people must do, and seven people who may do them all. The rules are one for
/// each pair of steps, or one for each step and all before it.
pub fn pigeonhole(pairs: bool) -> Vec<u8> {
    let mut rules: Vec<[u8; 4]> = Vec::new();
    for step in 1..8 {
        if pairs {
            rules.extend((0..step).map(|x| [1, 1, step, 1 << x]));
        } else {
            rules.push([3, 1, step, (1 << step) - 1]);
        }
    }
    let mut file = header(Shape { people: 7, steps: 8, roles: 1, tables: 0, rules: rules.len() as u32, thick: 0, held: 0, same: 0, own: 0 });
    put(&mut file, &[1; 7]);
    put(&mut file, &[1, 0].repeat(8));
    file.extend(rules.concat());
    file
}
