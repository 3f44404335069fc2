//! Document 01's cases that need a whole table: builds, checks and looks up, and compares the
//! values that 01 names with `tables.expected`.
//!
//! The buffers hold other bytes before each build and each lookup.

use std::fmt::Write;

use bicycle::pair::matrix;
use bicycle::{Built, Checked, MeasurementImpl, Refused, STRINGS, TABLE_LENGTH};

mod common;

use common::{PLAN_MX as PLAN, PLAN_MY as IDENTITY};

const ZERO: &str = "000000000000000000000000000000000000";

/// A lookup, as the library has two of one form.
type Lookup = fn(&[u8], &[u8], &[u8], u32, &mut [u8]) -> Result<MeasurementImpl, Refused>;
const EXACT: (&str, Lookup) = ("exact", bicycle::implementation);
const PIVOT_FREE: (&str, Lookup) = ("pivot-free", bicycle::min_data);

fn digits(text: &str) -> [u8; 36] {
    matrix(text.as_bytes()).unwrap()
}

fn value(bytes: &[u8], p: usize) -> u32 {
    u32::from_le_bytes(bytes[4 * p..4 * p + 4].try_into().unwrap())
}

fn put(bytes: &mut [u8], p: usize, v: u32) {
    bytes[4 * p..4 * p + 4].copy_from_slice(&v.to_le_bytes());
}

/// What a call tells: a number, the length needed, and the values, zeros if it is refused.
fn flat<T: Default>(answer: Result<T, Refused>) -> (u32, usize, T) {
    match answer {
        Ok(told) => (0, 0, told),
        Err(r) => (r.number, r.needed, T::default()),
    }
}

/// Table, queue, and the lines so far.
struct Bench {
    table: Vec<u8>,
    queue: Vec<u8>,
    printed: String,
}

impl Bench {
    fn say(&mut self, line: &str) {
        self.printed.push_str(line);
        self.printed.push('\n');
    }

    /// Builds over other bytes, without the first ones of table and queue.
    fn build(&mut self, without: (usize, usize), mx: &[u8], my: &[u8]) -> String {
        self.table.fill(0xa5);
        self.queue.fill(0x5a);
        let (table, queue) = (&mut self.table[without.0..], &mut self.queue[without.1..]);
        let (number, _, built) = flat(bicycle::build(table, queue, mx, my));
        let Built { entries, depth } = built;
        format!("refused={number} entries={entries} depth={depth}")
    }

    fn case(&mut self, name: &str, mx: &[u8], my: &[u8], strings: &[usize]) {
        let mut line = format!("{name}: {}", self.build((0, 0), mx, my));
        for &p in strings {
            write!(line, " {p} holds {}", value(&self.table, p)).unwrap();
        }
        // what the answer says, counted here once more
        let values = (0..TABLE_LENGTH / 4).map(|p| value(&self.table, p));
        let entries = values.clone().filter(|&v| v != 0).count();
        let depth = values.map(|v| v / 1024).max().unwrap();
        let last = (0..TABLE_LENGTH / 4)
            .take_while(|&i| value(&self.queue, i) != 0)
            .count();
        let tail = self.queue[4 * last..].iter().all(|&b| b == 0);
        write!(
            line,
            "; counted {entries}, {depth}; queue {last}, then zeros {tail}"
        )
        .unwrap();
        self.say(&line);
    }

    /// A build that is refused.
    fn refusal(&mut self, name: &str, without: (usize, usize), mx: &[u8], my: &[u8]) {
        let told = self.build(without, mx, my);
        let still = self.table.iter().all(|&b| b == 0xa5) && self.queue.iter().all(|&b| b == 0x5a);
        self.say(&format!("{name}: {told} nothing written {still}"));
    }

    fn check(&mut self, name: &str, from: usize, mx: &[u8], my: &[u8]) {
        let answer = bicycle::check(&self.table[from..], mx, my);
        let (number, accepted, index) = match answer {
            Ok(Checked::Accepted) => (0, 1, 0),
            Ok(Checked::Rejected(index)) => (0, 0, index),
            Err(r) => (r.number, 0, 0),
        };
        self.say(&format!(
            "  check, {name}: refused={number} accepted={accepted} index={index}"
        ));
    }

    /// Lends the first `room` of four bytes, and prints all four.
    fn look(
        &mut self,
        (name, lookup): (&str, Lookup),
        from: usize,
        (mx, my): (&[u8], &[u8]),
        p: u32,
        room: usize,
    ) {
        let mut out = [165; 4];
        let answer = lookup(&self.table[from..], mx, my, p, &mut out[..room]);
        let (number, needed, found) = flat(answer);
        let MeasurementImpl {
            measures,
            native,
            base,
            rotations,
        } = found;
        self.say(&format!(
            "  {name} {p}, room {room}: refused={number} needed={needed} measures={measures} \
             native={native} base={base} rotations={rotations}; buffer {out:?}"
        ));
    }
}

#[test]
fn cases_of_document_01() {
    let (one, zero, plan) = (&digits(IDENTITY)[..], &digits(ZERO)[..], &digits(PLAN)[..]);
    let bad = &mut digits(IDENTITY)[..];
    bad[35] = 2;
    let bad = &*bad;
    let mut t = Bench {
        table: vec![0; TABLE_LENGTH],
        queue: vec![0; TABLE_LENGTH],
        printed: String::new(),
    };

    t.case("identity pair", one, one, &[0, 1, 2]);
    for p in [0, 1, 2, STRINGS - 1, STRINGS] {
        t.look(EXACT, 0, (one, one), p, 4);
    }
    for p in [0, 1, 2, STRINGS] {
        t.look(PIVOT_FREE, 0, (one, one), p, 4);
    }
    t.check("as built", 0, one, one);
    t.check("for another pair", 0, plan, one);
    put(&mut t.table, 16_000_000, 1025);
    t.check("an entry that leads nowhere at 16000000", 0, one, one);
    put(&mut t.table, 0, 540);
    t.check("and 540 at 0", 0, one, one);
    t.case("zero pair", zero, zero, &[0, 1]);
    t.check("as built", 0, zero, zero);
    t.look(PIVOT_FREE, 0, (zero, zero), 0, 4);
    t.case("plan pair", plan, one, &[0, 262145, 262337]);
    t.check("as built", 0, plan, one);
    for room in [4, 2, 1] {
        t.look(EXACT, 0, (plan, one), 262337, room);
    }
    // 0: no rotation; 66: all three letters need one, the first wins; 262336: Z alone needs none
    for p in [0, 66, 262336] {
        t.look(PIVOT_FREE, 0, (plan, one), p, 4);
    }
    t.look(PIVOT_FREE, 0, (plan, one), 66, 1);
    put(&mut t.table, 262337, 0);
    t.check("262337 without its entry", 0, plan, one);
    put(&mut t.table, 262337, 1558 + 1024);
    t.check("262337 one deeper", 0, plan, one);
    put(&mut t.table, 262337, 1558);
    t.check("as built once more", 0, plan, one);
    t.say("table short, matrix bad, string out of range:");
    t.check("of these", 1, bad, one);
    t.look(EXACT, 1, (bad, one), STRINGS, 0);
    t.look(PIVOT_FREE, 1, (bad, one), STRINGS, 0);
    t.say("matrix with a 2, then one of 35 bytes, string out of range:");
    t.check("of these", 0, one, bad);
    t.check("of these", 0, &one[1..], one);
    t.look(EXACT, 0, (one, bad), STRINGS, 0);
    t.look(PIVOT_FREE, 0, (&one[1..], one), STRINGS, 0);
    t.say("262145 holds another native's field, 4097 its own at depth 1:");
    put(&mut t.table, 262145, 442);
    let deeper = value(&t.table, 4097) + 1024;
    put(&mut t.table, 4097, deeper);
    t.look(EXACT, 0, (plan, one), 262337, 4);
    t.look(PIVOT_FREE, 0, (plan, one), 262336, 1);
    t.look(PIVOT_FREE, 0, (plan, one), 0, 4);

    t.refusal("table short, queue short, matrix bad", (1, 1), bad, one);
    t.refusal("queue short, matrix bad", (0, 1), bad, one);
    t.refusal("matrix with a 2", (0, 0), one, bad);
    t.refusal("matrix of 35 bytes", (0, 0), &one[1..], one);

    assert_eq!(t.printed, include_str!("tables.expected"));
}
