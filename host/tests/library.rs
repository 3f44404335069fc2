//! Each safe function once with an answer and once with each refusal that needs no whole table.
//!
//! The values are those of document 01, or follow from its definitions by hand.

use bicycle::pair::{NotDigits, digits, matrix};
use bicycle::{Automorphism, Code, Letter, NATIVES, Pair, Refused, STRINGS, TABLE_LENGTH, written};

mod common;

use common::{PLAN_MX, PLAN_MY};

fn plan_pair() -> Pair {
    Pair::from_digits(PLAN_MX.as_bytes(), PLAN_MY.as_bytes()).unwrap()
}

fn refused<T>(number: u32) -> Result<T, Refused> {
    Err(Refused { number, needed: 0 })
}

fn room<T>(needed: usize) -> Result<T, Refused> {
    Err(Refused { number: 9, needed })
}

#[test]
fn strings() {
    assert_eq!(bicycle::commutes_with(1, 4096), Ok(false));
    assert_eq!(bicycle::commutes_with(65, 266240), Ok(true));
    assert_eq!(bicycle::commutes_with(STRINGS - 1, STRINGS), refused(4));
    assert_eq!(bicycle::conjugate_with(1, 4096), Ok(4097));
    assert_eq!(bicycle::conjugate_with(65, 266240), Ok(65));
    assert_eq!(bicycle::conjugate_with(STRINGS, 0), refused(4));
}

#[test]
fn text() {
    assert_eq!(bicycle::from_text(b"XIIIIIIIIIII"), Ok(2048));
    assert_eq!(bicycle::from_text(b"iiiixyiiiiix"), Ok(262337));
    for bad in [
        &b""[..],
        b"IIIIIIIIIII",
        b"IIIIIIIIIIIII",
        b"IIIIIIIIIIIA",
        b"IIIIIIIIIII\xff",
    ] {
        assert_eq!(bicycle::from_text(bad), refused(13));
    }
    let mut out = [b'.'; 14];
    assert_eq!(bicycle::display(2048, &mut out), Ok(12));
    assert_eq!(&out, b"XIIIIIIIIIII..");
    assert_eq!(bicycle::display(1, &mut out[..11]), room(12));
    assert_eq!(bicycle::display(STRINGS, &mut out[..0]), refused(4));
    assert_eq!(&out, b"XIIIIIIIIIII..", "a refusal writes nothing");
    assert_eq!(
        written(|out| bicycle::display(4097, out)).as_deref(),
        Ok("IIIIIIIIIIIY")
    );
    assert_eq!(written(|out| bicycle::display(STRINGS, out)), refused(4));
}

/// A text backwards is read too, and is another string unless its letters form a palindrome.
#[test]
fn mirrored_text() {
    let mirrored = |text: &str| {
        let backwards: Vec<u8> = text.bytes().rev().collect();
        bicycle::from_text(&backwards)
    };
    for (text, number, backwards) in [
        ("XIIIIIIIIIII", 2048, 1),
        ("IIIIXYIIIIIX", 262337, 133168),
        ("XIIIIIIIIIIX", 2049, 2049),
        // eleven letters behind one that is no phase here
        ("iXYIIIIIIIII", 2_098_688, 16390),
    ] {
        assert_eq!(bicycle::from_text(text.as_bytes()), Ok(number));
        assert_eq!(mirrored(text), Ok(backwards));
    }
    for p in (0..STRINGS).step_by(997) {
        let text = written(|out| bicycle::display(p, out)).unwrap();
        assert_eq!(bicycle::from_text(text.as_bytes()), Ok(p));
        assert_eq!(mirrored(&text), Ok(mirror(p)));
        let palindrome = text.bytes().eq(text.bytes().rev());
        assert_eq!(mirror(p) == p, palindrome, "{text}");
    }
}

/// The string with its letters in reverse order, which are the digits of each half.
fn mirror(p: u32) -> u32 {
    let half = |digits: u32| (digits & 0xfff).reverse_bits() >> 20;
    half(p >> 12) << 12 | half(p)
}

#[test]
fn letters() {
    let letters = [
        (b'I', None),
        (b'X', Some((b'Z', b'Y'))),
        (b'Z', Some((b'X', b'Y'))),
    ];
    for (letter, anticommuting) in letters.into_iter().chain([(b'Y', Some((b'X', b'Z')))]) {
        let answer = Ok(Letter {
            letter,
            anticommuting,
        });
        assert_eq!(bicycle::letter(letter), answer);
        assert_eq!(bicycle::letter(letter.to_ascii_lowercase()), answer);
    }
    let none = (0..=255).filter(|byte| bicycle::letter(*byte) == refused(13));
    assert_eq!(none.count(), 256 - 8);
}

#[test]
fn automorphisms() {
    let of = |x, y, inverse, nr_generators| Automorphism {
        x,
        y,
        inverse,
        nr_generators,
    };
    assert_eq!(bicycle::automorphism(4, 5), of(4, 5, (2, 1), 2));
    assert_eq!(bicycle::automorphism(0, 0), of(0, 0, (0, 0), 0));
    assert_eq!(bicycle::automorphism(255, 252), of(3, 0, (3, 0), 2));
    assert_eq!(bicycle::automorphism_mul(4, 5, 255, 3), of(1, 2, (5, 4), 2));
    assert_eq!(bicycle::automorphism_mul(4, 5, 2, 1), of(0, 0, (0, 0), 0));
}

#[test]
fn natives() {
    let Pair { mx, my } = plan_pair();
    assert_eq!(bicycle::measures(&mx, &my, 440), Ok(262145));
    assert_eq!(bicycle::measures(&mx, &my, 533), Ok(4288));
    assert_eq!(bicycle::measures(&mx, &my, NATIVES), refused(11));
    assert_eq!(bicycle::measures(&mx, &my, u32::MAX), refused(11));
    assert_eq!(bicycle::measures(&mx[1..], &my, NATIVES), refused(3));
    let base = "aut(4,5) meas(X,Z) aut(2,1)";
    assert_eq!(
        written(|out| bicycle::native_instructions(440, out)).as_deref(),
        Ok(base)
    );
    assert_eq!(bicycle::native_instructions(440, &mut [0; 26]), room(27));
    assert_eq!(bicycle::native_instructions(NATIVES, &mut []), refused(11));
    let rotation = "meas(X,I) aut(5,5) meas(Z,X) aut(1,1) meas(Y,I)";
    let expanded = written(|out| bicycle::rotation_instructions(&mx, &my, 533, out));
    assert_eq!(expanded.as_deref(), Ok(rotation));
    assert_eq!(
        bicycle::rotation_instructions(&mx, &my, 533, &mut [0; 46]),
        room(47)
    );
    // native 0 is X on qubit 6 alone
    assert_eq!(
        bicycle::rotation_instructions(&mx, &my, 0, &mut []),
        refused(10)
    );
    assert_eq!(
        bicycle::rotation_instructions(&mx, &my, NATIVES, &mut []),
        refused(11)
    );
    assert_eq!(
        bicycle::rotation_instructions(&mx, &[2; 36], NATIVES, &mut []),
        refused(3)
    );
}

#[test]
fn plans() {
    let paper = format!("mx={PLAN_MX}\nmy={PLAN_MY}\nbase=440\n");
    let listing =
        "measures=IIIIIZIIIIIX\ncount=0\nshifts=2\nbase=440\nexpand=aut(4,5) meas(X,Z) aut(2,1)\n";
    let list = |paper: &str| written(|out| bicycle::list(paper.as_bytes(), out));
    assert_eq!(list(&paper).as_deref(), Ok(listing));
    assert_eq!(list("").as_deref(), Ok("refused=12\n"));
    assert_eq!(
        bicycle::list(paper.as_bytes(), &mut [0; 9]),
        room(listing.len())
    );
}

#[test]
fn tables() {
    let Pair { mx, my } = plan_pair();
    let (mut table, mut queue) = (vec![0; TABLE_LENGTH], vec![0; TABLE_LENGTH]);
    assert_eq!(bicycle::is_empty(&table), Ok(true));
    assert_eq!(bicycle::len(&table), Ok(0));
    assert_eq!(bicycle::cost(&table, 0), refused(7));
    bicycle::build(&mut table, &mut queue, &mx, &my).unwrap();
    assert_eq!(bicycle::is_empty(&table), Ok(false));
    assert_eq!(bicycle::len(&table), Ok(54));
    assert_eq!(bicycle::cost(&table, 0), Ok(0));
    assert_eq!(bicycle::cost(&table, 262145), Ok(1));
    assert_eq!(bicycle::cost(&table, 262337), Ok(3));
    assert_eq!(bicycle::cost(&table, STRINGS), refused(4));
    for short in [&table[1..], &[]] {
        assert_eq!(bicycle::is_empty(short), refused(1));
        assert_eq!(bicycle::len(short), refused(1));
        assert_eq!(bicycle::cost(short, STRINGS), refused(1));
    }
    let plan = bicycle::implementation_plan(&table, &mx, &my, 262337).unwrap();
    assert_eq!(
        (plan.measures, plan.native, plan.base),
        (262337, 440, 262145)
    );
    assert_eq!(plan.rotations, [533]);
    let plan = bicycle::min_data_plan(&table, &mx, &my, 262336).unwrap();
    assert_eq!(
        (plan.measures, plan.native, plan.base),
        (266432, 535, 266432)
    );
    assert_eq!(plan.rotations, []);
    assert_eq!(bicycle::min_data_plan(&table, &mx, &my, 1), refused(6));
}

#[test]
fn pairs() {
    assert_eq!(digits(&matrix(PLAN_MX.as_bytes()).unwrap()), PLAN_MX);
    assert_eq!(matrix(&[b'9'; 36]), Ok([9; 36]));
    for bad in [&b""[..], &[b'0'; 35], &[b'0'; 37], &[b'/'; 36], &[b':'; 36]] {
        assert_eq!(matrix(bad), Err(NotDigits));
    }
    for code in Code::ALL {
        assert_eq!(code.to_string().parse(), Ok(code));
    }
    // automorphisms are pairs modulo 6 because the sixth power of each is the identity
    for matrix in Code::ALL
        .into_iter()
        .flat_map(|code| [code.pair().mx, code.pair().my])
    {
        let six = (0..6).fold(identity(), |power, _| product(&power, &matrix));
        assert_eq!(six, identity());
    }
}

fn identity() -> [u8; 36] {
    matrix(PLAN_MY.as_bytes()).unwrap()
}

fn product(a: &[u8; 36], b: &[u8; 36]) -> [u8; 36] {
    std::array::from_fn(|i| (0..6).fold(0, |sum, k| sum ^ a[i / 6 * 6 + k] & b[6 * k + i % 6]))
}

#[test]
fn every_refusal_has_a_sentence_of_its_own() {
    let mut sentences: Vec<_> = (1..=14)
        .map(|number| Refused { number, needed: 0 }.sentence())
        .collect();
    assert!(sentences.iter().all(|s| s.ends_with('.') && s.len() < 90));
    sentences.push(
        Refused {
            number: 15,
            needed: 0,
        }
        .sentence(),
    );
    sentences.sort();
    sentences.dedup();
    assert_eq!(sentences.len(), 15);
}
