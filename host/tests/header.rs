//! The header for C: it names the functions that the archive has, and means what Rust means.

use std::collections::BTreeSet;
use std::mem::{offset_of, size_of};
use std::path::{Path, PathBuf};
use std::process::Command;

use bicycle::{Pair, TABLE_LENGTH, ffi};

mod common;

use common::{PLAN_MX, PLAN_MY};

const ARCHIVE: &str = env!("BICYCLE_ARCHIVE");
const TESTS: &str = concat!(env!("CARGO_MANIFEST_DIR"), "/tests");
const INCLUDE: &str = concat!(env!("CARGO_MANIFEST_DIR"), "/../include");

/// What a program prints; that it runs and ends well is part of the test.
fn output(command: &mut Command) -> String {
    let run = command
        .output()
        .unwrap_or_else(|e| panic!("{command:?}: {e}"));
    assert!(
        run.status.success(),
        "{command:?}: {}",
        String::from_utf8_lossy(&run.stderr)
    );
    String::from_utf8(run.stdout).unwrap()
}

#[test]
fn the_header_has_the_functions_of_the_archive() {
    let listed = output(Command::new("nm").args(["--extern-only", "--defined-only", ARCHIVE]));
    let exported: BTreeSet<&str> = listed
        .lines()
        .filter_map(|line| line.split_whitespace().last())
        .filter(|name| name.starts_with("bicycle_"))
        .collect();
    let header = std::fs::read_to_string(Path::new(INCLUDE).join("bicycle.h")).unwrap();
    // a name before a parenthesis is a function's
    let declared: BTreeSet<&str> = header
        .match_indices('(')
        .filter_map(|(i, _)| header[..i].split(|c: char| !is_of_name(c)).next_back())
        .filter(|name| name.starts_with("bicycle_"))
        .collect();
    assert!(!declared.is_empty());
    assert_eq!(declared, exported);
}

fn is_of_name(c: char) -> bool {
    c.is_ascii_alphanumeric() || c == '_'
}

#[test]
fn the_header_is_cplusplus_too() {
    if Command::new("c++").arg("--version").output().is_err() {
        return eprintln!("no C++ compiler here: this is left out");
    }
    let object = Path::new(env!("CARGO_TARGET_TMPDIR")).join("header.o");
    output(
        Command::new("c++")
            .args([
                "-x",
                "c++",
                "-std=c++11",
                "-Wall",
                "-Wextra",
                "-Werror",
                "-pedantic",
            ])
            .args([
                "-I",
                INCLUDE,
                "-include",
                "bicycle.h",
                "-c",
                "/dev/null",
                "-o",
            ])
            .arg(object),
    );
}

#[test]
fn a_c_program_sees_what_rust_sees() {
    let program = compiled();
    let pair = Pair::from_digits(PLAN_MX.as_bytes(), PLAN_MY.as_bytes()).unwrap();
    let paper = format!("mx={PLAN_MX}\nmy={PLAN_MY}\nbase=440\nrotation=533\n");
    let printed = output(Command::new(program).args([&paper, PLAN_MX, PLAN_MY]));
    assert_eq!(printed, layouts() + &answers(&pair, &paper));
}

fn compiled() -> PathBuf {
    let program = Path::new(env!("CARGO_TARGET_TMPDIR")).join("header");
    output(
        Command::new("cc")
            .args([
                "-std=c99",
                "-Wall",
                "-Wextra",
                "-Werror",
                "-pedantic",
                "-I",
                INCLUDE,
            ])
            .args([&format!("{TESTS}/header.c"), ARCHIVE, "-o"])
            .arg(&program),
    );
    program
}

macro_rules! layout {
    ($name:expr, $field:expr, $at:expr) => {
        format!("{}.{} at {}\n", $name, $field, $at)
    };
    ($name:literal $type:ident $($field:ident)*) => {
        format!("{} has {} bytes\n", $name, size_of::<ffi::$type>())
            $(+ &layout!($name, stringify!($field), offset_of!(ffi::$type, $field)))*
    };
}

fn layouts() -> String {
    [
        layout!("bicycle_build_result" BuildResult number entries depth),
        layout!("bicycle_check_result" CheckResult number accepted index),
        layout!("bicycle_lookup_result" LookupResult
                needed number measures native base rotations),
        layout!("bicycle_value_result" ValueResult number value),
        layout!("bicycle_text_result" TextResult needed length number),
        layout!("bicycle_letter_result" LetterResult number letter first second),
        layout!("bicycle_automorphism_result" AutomorphismResult
                generators x y inverse_x inverse_y),
    ]
    .concat()
}

/// The calls of header.c, by Rust.
fn answers(pair: &Pair, paper: &str) -> String {
    let (mx, my) = (&pair.mx[..], &pair.my[..]);
    let (mut table, mut queue) = (vec![0; TABLE_LENGTH], vec![0; TABLE_LENGTH]);
    let mut out = [0; 1024];
    let mut lines = Lines(String::new());

    lines.put(
        "build",
        shown(ffi::build(&mut table, &mut queue, mx, my)),
        "",
    );
    let t = &table[..];
    lines.put("check", shown(ffi::check(t, mx, my)), "");
    let r = ffi::implementation(t, mx, my, 262337, &mut out[..2]);
    lines.put(
        "implementation",
        shown(r),
        &format!(", {} {}", out[0], out[1]),
    );
    let r = ffi::min_data(t, mx, my, 66, &mut out[..2]);
    lines.put("min_data", shown(r), &format!(", {} {}", out[0], out[1]));
    let r = ffi::min_data(t, mx, my, 66, &mut out[..1]);
    lines.put("no room", shown(r), &format!(", {} {}", out[0], out[1]));
    lines.put("is_empty", shown(ffi::is_empty(t)), "");
    lines.put("len", shown(ffi::len(t)), "");
    lines.put("cost", shown(ffi::cost(t, 262337)), "");
    lines.put(
        "cost of none",
        shown(ffi::cost(t, bicycle::STRINGS - 1)),
        "",
    );
    lines.put("measures", shown(ffi::measures(mx, my, 440)), "");
    lines.put(
        "measures of none",
        shown(ffi::measures(mx, my, bicycle::NATIVES)),
        "",
    );
    lines.text(
        "native_instructions",
        ffi::native_instructions(440, &mut out),
        &out,
    );
    lines.text(
        "rotation_instructions",
        ffi::rotation_instructions(mx, my, 533, &mut out),
        &out,
    );
    lines.put("from_text", shown(ffi::from_text(b"iiiixyiiiiix")), "");
    lines.text("display", ffi::display(262337, &mut out[..12]), &out);
    lines.text("display in 11", ffi::display(262337, &mut out[..11]), &out);
    lines.put("commutes_with", shown(ffi::commutes_with(65, 266240)), "");
    lines.put("conjugate_with", shown(ffi::conjugate_with(1, 4096)), "");
    lines.text("list", ffi::list(paper.as_bytes(), &mut out), &out);
    lines.put("letter", shown(ffi::letter(b'z')), "");
    lines.put("automorphism", shown(ffi::automorphism(10, 5)), "");
    lines.put(
        "automorphism_mul",
        shown(ffi::automorphism_mul(4, 5, 255, 3)),
        "",
    );
    lines.0
}

/// The fields of a flat answer, as header.c prints them: Rust's own form, without its marks.
fn shown(answer: impl std::fmt::Debug) -> String {
    let debug = format!("{answer:?}");
    let (_, fields) = debug.split_once(" { ").unwrap();
    fields.trim_end_matches(" }").replace([':', ','], "")
}

struct Lines(String);

impl Lines {
    fn put(&mut self, name: &str, fields: String, written: &str) {
        self.0 += &format!("{name}: {fields}{written}\n");
    }

    fn text(&mut self, name: &str, r: ffi::TextResult, out: &[u8]) {
        let text = std::str::from_utf8(&out[..r.length]).unwrap();
        self.put(name, shown(r), &format!(", {text}"));
    }
}
