//! Document 01's sentences on natives, tables and lookups written out once more, as plainly as can
//! be and apart from the library. Nothing here is taken from the crates or from the original.

use bicycle::Pair;
use bicycle::pair::Matrix;

pub const STRINGS: u32 = 16_777_216;
pub const TABLE_LENGTH: usize = 67_108_864;
pub const NATIVES: usize = 540;
const IDENTITY_VALUE: u32 = 541;

/// X, Z and Y on qubit 0.
const PIVOT_LETTERS: [u32; 3] = [1, 4096, 4097];

// ---- strings

/// The letter on a qubit, as its place in I, X, Z, Y: bit i is X, bit 12 + i is Z, both are Y.
pub fn letter(p: u32, qubit: u32) -> usize {
    (p >> qubit & 1 | (p >> (12 + qubit) & 1) << 1) as usize
}

/// The textbook's rule: an even number of qubits where both letters are no identity and differ.
pub fn commute_by_qubit(p: u32, q: u32) -> bool {
    let differ = |&qubit: &u32| {
        let (a, b) = (letter(p, qubit), letter(q, qubit));
        a != 0 && b != 0 && a != b
    };
    (0..12).filter(differ).count() % 2 == 0
}

/// The same for all qubits at once: there the X digit of one meets the Z digit of the other once,
/// not twice.
pub fn commute(p: u32, q: u32) -> bool {
    let (px, pz, qx, qz) = (p & 0xfff, p >> 12, q & 0xfff, q >> 12);
    (px & qz ^ pz & qx).count_ones().is_multiple_of(2)
}

pub fn conjugate(p: u32, r: u32) -> u32 {
    if commute(p, r) { p } else { p ^ r }
}

pub fn blank_pivot(p: u32) -> u32 {
    p & !4097
}

pub fn has_pivot(p: u32) -> bool {
    p & 4097 != 0
}

// ---- natives

fn times(a: &Matrix, b: &Matrix) -> Matrix {
    let mut c = [0; 36];
    for row in 0..6 {
        for column in 0..6 {
            let products = (0..6).map(|k| a[6 * row + k] * b[6 * k + column]);
            c[6 * row + column] = products.sum::<u8>() % 2;
        }
    }
    c
}

/// A(x,y) = Mx^x·My^y modulo 2.
fn action(pair: &Pair, x: usize, y: usize) -> Matrix {
    let mut a = [0; 36];
    for i in 0..6 {
        a[7 * i] = 1;
    }
    for _ in 0..x {
        a = times(&a, &pair.mx);
    }
    for _ in 0..y {
        a = times(&a, &pair.my);
    }
    a
}

/// A native's automorphism and its two letters, in the order I, X, Z, Y.
pub fn taken_apart(n: usize) -> (usize, usize, usize, usize) {
    let (shift, k) = (n / 15, n % 15 + 1);
    (shift / 6, shift % 6, k / 4, k % 4)
}

/// The string that native n measures: its X letters place the first column of A of the inverse
/// automorphism, its Z letters the first row of A(x,y); letter 1 on qubits 0 to 5, letter 7 on 6 to
/// 11.
pub fn measures(pair: &Pair, n: usize) -> u32 {
    let (x, y, letter_1, letter_7) = taken_apart(n);
    let inverse = action(pair, (6 - x) % 6, (6 - y) % 6);
    let direct = action(pair, x, y);
    let mut p = 0;
    for (letter, first) in [(letter_1, 0), (letter_7, 6)] {
        for i in 0..6 {
            if letter == 1 || letter == 3 {
                p |= u32::from(inverse[6 * i]) << (first + i);
            }
            if letter == 2 || letter == 3 {
                p |= u32::from(direct[i]) << (12 + first + i);
            }
        }
    }
    p
}

// ---- tables

pub fn entry(table: &[u8], p: u32) -> u32 {
    let at = 4 * p as usize;
    u32::from_le_bytes([table[at], table[at + 1], table[at + 2], table[at + 3]])
}

pub fn put(table: &mut [u8], p: u32, value: u32) {
    let at = 4 * p as usize;
    table[at..at + 4].copy_from_slice(&value.to_le_bytes());
}

pub fn depth(value: u32) -> u32 {
    value / 1024
}

pub fn field(value: u32) -> u32 {
    value % 1024
}

/// How many values are not 0.
pub fn len(table: &[u8]) -> u32 {
    (0..STRINGS).filter(|&p| entry(table, p) != 0).count() as u32
}

/// The Rust's cost, or the number of a refusal.
pub fn cost(table: &[u8], p: u32) -> Result<u32, u32> {
    match p {
        STRINGS.. => Err(4),
        _ if entry(table, p) == 0 => Err(7),
        0 => Ok(0),
        _ => Ok(1 + 2 * depth(entry(table, p))),
    }
}

/// The natives of a pair.
pub struct Code {
    pub strings: Vec<u32>,
    /// For each string the greatest native that measures it, and 1; 0 where none does.
    kept_at: Vec<u16>,
    /// The kept natives with pivot support, ascending.
    pub rotations: Vec<u16>,
    /// What rotations conjugate by, each string once.
    blanked: Vec<u32>,
}

/// What a build tells.
#[derive(Debug, PartialEq, Eq)]
pub struct Built {
    pub entries: u32,
    pub depth: u32,
}

/// A lookup's plan, rotations base side first.
#[derive(Debug, Clone, PartialEq, Eq)]
pub struct Plan {
    pub measures: u32,
    pub native: u16,
    pub base: u32,
    pub rotations: Vec<u16>,
}

/// The number of a refusal that a table or a matrix brings, the lowest first.
pub fn given(table: &[u8], mx: &[u8], my: &[u8]) -> Option<u32> {
    if table.len() != TABLE_LENGTH {
        return Some(1);
    }
    pair(mx, my).err()
}

/// Two matrices as bytes by rows, or refusal 3.
pub fn pair(mx: &[u8], my: &[u8]) -> Result<Pair, u32> {
    let matrix = |m: &[u8]| {
        Matrix::try_from(m)
            .ok()
            .filter(|m| m.iter().all(|&b| b <= 1))
    };
    matrix(mx)
        .zip(matrix(my))
        .map(|(mx, my)| Pair { mx, my })
        .ok_or(3)
}

/// Document 01's number, and the length that 9 carries.
#[derive(Debug, Clone, Copy, PartialEq, Eq)]
pub struct Refusal {
    pub number: u32,
    pub needed: usize,
}

pub fn refuse<T>(number: u32) -> Result<T, Refusal> {
    Err(Refusal { number, needed: 0 })
}

/// The first discovery of a string stays.
fn discover(table: &mut [u8], queue: &mut [u8], found: &mut u32, p: u32, value: u32) {
    if entry(table, p) == 0 {
        put(table, p, value);
        put(queue, *found, p);
        *found += 1;
    }
}

impl Code {
    pub fn new(pair: &Pair) -> Code {
        let strings: Vec<u32> = (0..NATIVES).map(|n| measures(pair, n)).collect();
        let mut kept_at = vec![0; STRINGS as usize];
        for (n, &p) in strings.iter().enumerate() {
            kept_at[p as usize] = n as u16 + 1;
        }
        let kept = |n: &u16| kept_at[strings[*n as usize] as usize] == n + 1;
        let pivotal = |n: &u16| has_pivot(strings[*n as usize]);
        let rotations: Vec<u16> = (0..NATIVES as u16).filter(kept).filter(pivotal).collect();
        let mut blanked: Vec<u32> = rotations
            .iter()
            .map(|&n| blank_pivot(strings[n as usize]))
            .collect();
        blanked.sort();
        blanked.dedup();
        Code {
            strings,
            kept_at,
            rotations,
            blanked,
        }
    }

    /// The kept native of a string.
    pub fn kept(&self, p: u32) -> Option<u16> {
        self.kept_at[p as usize].checked_sub(1)
    }

    /// What rotation n leads from p to.
    pub fn leads(&self, p: u32, n: u16) -> u32 {
        conjugate(p, blank_pivot(self.strings[n as usize]))
    }

    /// The native that a value's field names, if it is kept.
    fn named(&self, value: u32) -> Option<u16> {
        let n = field(value)
            .checked_sub(1)
            .filter(|&n| n < NATIVES as u32)? as u16;
        (self.kept(self.strings[n as usize]) == Some(n)).then_some(n)
    }

    /// The same, if it is a rotation.
    fn rotation(&self, value: u32) -> Option<u16> {
        self.named(value)
            .filter(|&n| has_pivot(self.strings[n as usize]))
    }

    // ---- build

    pub fn build(&self, table: &mut [u8], queue: &mut [u8]) -> Built {
        table.fill(0);
        queue.fill(0);
        put(table, 0, IDENTITY_VALUE);
        let mut found = 0;
        for &p in &self.strings {
            discover(
                table,
                queue,
                &mut found,
                p,
                u32::from(self.kept_at[p as usize]),
            );
        }
        let (mut next, mut deepest) = (0, 0);
        while next < found {
            let p = entry(queue, next);
            deepest = depth(entry(table, p));
            for &n in &self.rotations {
                let value = 1024 * (deepest + 1) + u32::from(n) + 1;
                discover(table, queue, &mut found, self.leads(p, n), value);
            }
            next += 1;
        }
        Built {
            entries: found + 1,
            depth: deepest,
        }
    }

    // ---- check

    /// The lowest index that breaks its rule.
    pub fn check(&self, table: &[u8]) -> Option<u32> {
        (0..STRINGS).find(|&p| !self.meets(table, p))
    }

    /// Whether an index meets its rule.
    pub fn meets(&self, table: &[u8], p: u32) -> bool {
        let value = entry(table, p);
        if p == 0 {
            return value == IDENTITY_VALUE;
        }
        if let Some(n) = self.kept(p) {
            return depth(value) == 0 && field(value) == u32::from(n) + 1;
        }
        let led_to = || self.blanked.iter().map(|&r| entry(table, conjugate(p, r)));
        let mut entries = led_to().filter(|&v| v != 0);
        if value == 0 {
            return entries.next().is_none();
        }
        let Some(n) = self.rotation(value) else {
            return false;
        };
        let below = entry(table, self.leads(p, n));
        depth(value) >= 1
            && below != 0
            && depth(below) + 1 == depth(value)
            && entries.all(|v| depth(v) + 1 >= depth(value))
    }

    // ---- lookups

    /// A nonzero value that is a valid entry for a nonzero string.
    fn is_valid(&self, p: u32, value: u32) -> bool {
        match depth(value) {
            0 => self
                .named(value)
                .is_some_and(|n| self.strings[n as usize] == p),
            _ => self.rotation(value).is_some(),
        }
    }

    /// The walk from p down to a native; none where 8 is due.
    fn walk(&self, table: &[u8], p: u32) -> Option<Plan> {
        let mut rotations = vec![];
        let (mut at, mut value) = (p, entry(table, p));
        loop {
            if !self.is_valid(at, value) {
                return None;
            }
            let n = field(value) as u16 - 1;
            if depth(value) == 0 {
                rotations.reverse();
                return Some(Plan {
                    measures: p,
                    native: n,
                    base: at,
                    rotations,
                });
            }
            rotations.push(n);
            at = self.leads(at, n);
            let next = entry(table, at);
            if depth(next) + 1 != depth(value) {
                return None;
            }
            value = next;
        }
    }

    pub fn implementation(&self, table: &[u8], p: u32) -> Result<Plan, Refusal> {
        match p {
            STRINGS.. => refuse(4),
            0 => refuse(5),
            _ if entry(table, p) == 0 => refuse(7),
            _ => self.walk(table, p).map_or(refuse(8), Ok),
        }
    }

    pub fn min_data(&self, table: &[u8], p: u32) -> Result<Plan, Refusal> {
        if p >= STRINGS {
            return refuse(4);
        }
        if has_pivot(p) {
            return refuse(6);
        }
        let candidates = PIVOT_LETTERS.map(|letter| p ^ letter);
        let mut best: Option<Plan> = None;
        for q in candidates.into_iter().filter(|&q| entry(table, q) != 0) {
            let Some(plan) = self.walk(table, q) else {
                return refuse(8);
            };
            let shorter = |b: &Plan| plan.rotations.len() < b.rotations.len();
            if best.as_ref().is_none_or(shorter) {
                best = Some(plan);
            }
        }
        best.map_or(refuse(7), Ok)
    }
}

impl Plan {
    /// Puts the rotations in front of a buffer, or refuses by 9.
    pub fn write(&self, out: &mut [u8]) -> Result<(), Refusal> {
        let bytes: Vec<u8> = self
            .rotations
            .iter()
            .flat_map(|n| n.to_le_bytes())
            .collect();
        match out.get_mut(..bytes.len()) {
            Some(front) => front.copy_from_slice(&bytes),
            None => {
                return Err(Refusal {
                    number: 9,
                    needed: bytes.len(),
                });
            }
        }
        Ok(())
    }
}
