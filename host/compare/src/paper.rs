//! Document 01's "Plan listing" written out once more: the reader of plans on paper, and all that
//! `plan` prints.

use bicycle::Pair;
use bicycle::pair::Matrix;

use crate::model;

/// What a listing says of strings and natives, by whoever knows them.
pub trait Natives {
    /// The string that native n measures.
    fn string(&self, pair: &Pair, n: usize) -> u32;
    /// What is measured when string p is measured behind a rotation by another.
    fn behind(&self, p: u32, rotation: u32) -> u32;
    fn text(&self, p: u32) -> String;
    fn expansion(&self, n: usize) -> String;
    /// None where the pivot letter is the identity.
    fn rotation_expansion(&self, pair: &Pair, n: usize) -> Option<String>;
}

/// All that `plan` prints.
pub fn list(input: &[u8], by: &impl Natives) -> String {
    read(input, by).unwrap_or_else(|number| format!("refused={number}\n"))
}

/// The listing, or the number of the first bad line.
fn read(input: &[u8], by: &impl Natives) -> Result<String, u32> {
    let mut lines = input.split_inclusive(|&byte| byte == 10);
    let mx = matrix(value(lines.next(), "mx=")?)?;
    let my = matrix(value(lines.next(), "my=")?)?;
    let pair = Pair { mx, my };
    let base = number(value(lines.next(), "base=")?)?;
    let mut measured = by.string(&pair, base);
    let mut natives = format!("base={base}\nexpand={}\n", by.expansion(base));
    let mut count = 0;
    for line in lines {
        if count == 256 {
            return Err(12);
        }
        let n = number(value(Some(line), "rotation=")?)?;
        let expansion = by.rotation_expansion(&pair, n).ok_or(10u32)?;
        natives += &format!("rotation={n}\nexpand={expansion}\n");
        measured = by.behind(measured, by.string(&pair, n));
        count += 1;
    }
    if measured == 0 {
        return Err(5);
    }
    let (text, shifts) = (by.text(measured), 2 * (2 * count + 1));
    Ok(format!(
        "measures={text}\ncount={count}\nshifts={shifts}\n{natives}"
    ))
}

/// What stands between a line's name and the byte 10 that ends it. A missing line is bad.
fn value<'a>(line: Option<&'a [u8]>, name: &str) -> Result<&'a [u8], u32> {
    line.and_then(|line| line.strip_prefix(name.as_bytes())?.strip_suffix(b"\n"))
        .ok_or(12)
}

fn matrix(digits: &[u8]) -> Result<Matrix, u32> {
    let digits: Matrix = digits.try_into().map_err(|_| 12u32)?;
    if !digits.iter().all(u8::is_ascii_digit) {
        return Err(12);
    }
    if digits.iter().any(|&digit| digit > b'1') {
        return Err(3);
    }
    Ok(digits.map(|digit| digit - b'0'))
}

/// One to three digits with no needless zero.
fn number(digits: &[u8]) -> Result<usize, u32> {
    let needless = digits.len() > 1 && digits[0] == b'0';
    if !(1..=3).contains(&digits.len()) || needless || !digits.iter().all(u8::is_ascii_digit) {
        return Err(12);
    }
    let n = digits
        .iter()
        .fold(0, |n, digit| 10 * n + usize::from(digit - b'0'));
    if n < model::NATIVES { Ok(n) } else { Err(11) }
}

/// Strings and natives by document 01 alone.
pub struct Sentences;

const LETTERS: [char; 4] = ['I', 'X', 'Z', 'Y'];

impl Sentences {
    /// The string of twelve letters in either case, qubit 11 first.
    pub fn spelt(text: &[u8]) -> Option<u32> {
        let place = |&byte: &u8| {
            let capital = char::from(byte.to_ascii_uppercase());
            LETTERS.iter().position(|&letter| letter == capital)
        };
        let letters: Vec<usize> = text.iter().map(place).collect::<Option<_>>()?;
        let digits = |qubit: usize| {
            let letter = letters[11 - qubit] as u32;
            (letter & 1) << qubit | (letter >> 1) << (12 + qubit)
        };
        (letters.len() == 12).then(|| (0..12).map(digits).sum())
    }
}

impl Natives for Sentences {
    fn string(&self, pair: &Pair, n: usize) -> u32 {
        model::measures(pair, n)
    }

    fn behind(&self, p: u32, rotation: u32) -> u32 {
        model::conjugate(p, model::blank_pivot(rotation))
    }

    fn text(&self, p: u32) -> String {
        (0..12)
            .rev()
            .map(|qubit| LETTERS[model::letter(p, qubit)])
            .collect()
    }

    fn expansion(&self, n: usize) -> String {
        let (x, y, letter_1, letter_7) = model::taken_apart(n);
        let (a, b) = (LETTERS[letter_1], LETTERS[letter_7]);
        format!(
            "aut({x},{y}) meas({a},{b}) aut({},{})",
            (6 - x) % 6,
            (6 - y) % 6
        )
    }

    fn rotation_expansion(&self, pair: &Pair, n: usize) -> Option<String> {
        let (before, after) = match LETTERS[model::letter(self.string(pair, n), 0)] {
            'X' => ('Z', 'Y'),
            'Z' => ('X', 'Y'),
            'Y' => ('X', 'Z'),
            _ => return None,
        };
        Some(format!(
            "meas({before},I) {} meas({after},I)",
            self.expansion(n)
        ))
    }
}
