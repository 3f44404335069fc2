//! The command, run as a user runs it: good and bad words, files, and the kept tables.

use std::ffi::{OsStr, OsString};
use std::fs::{self, File};
use std::io;
use std::os::unix::ffi::OsStrExt;
use std::os::unix::fs::{FileTypeExt, symlink};
use std::path::{Path, PathBuf};
use std::process::{Command, Stdio};

use bicycle::{Code, NATIVES, TABLE_LENGTH, written};

mod common;

use common::{PLAN_MX, PLAN_MY};

/// The name of the plan pair's file in the cache folder.
const KEPT: &str = ".cache/bicycle/mx-830204081-my-810204081.table";

const PLAN_PAIR: [&str; 4] = ["--mx", PLAN_MX, "--my", PLAN_MY];

/// The digits of the letter on qubit 0.
const PIVOT: u32 = 4097;

/// Document 01's listing of string 262337 on the plan pair.
const LISTING: &str = "\
measures=IIIIXYIIIIIX
count=1
shifts=6
base=440
expand=aut(4,5) meas(X,Z) aut(2,1)
rotation=533
expand=meas(X,I) aut(5,5) meas(Z,X) aut(1,1) meas(Y,I)
";

/// A user with an empty home, which is also where the command runs.
struct User {
    home: PathBuf,
}

/// What one run printed, and its status.
#[derive(Debug)]
struct Ran {
    out: String,
    err: String,
    status: i32,
}

impl User {
    fn new(name: &str) -> User {
        let home = Path::new(env!("CARGO_TARGET_TMPDIR")).join(name);
        let _ = fs::remove_dir_all(&home);
        fs::create_dir_all(&home).unwrap();
        User { home }
    }

    fn path(&self, name: &str) -> PathBuf {
        self.home.join(name)
    }

    /// The names in its home, in order.
    fn names(&self) -> Vec<OsString> {
        let entries = fs::read_dir(&self.home).unwrap();
        let mut names: Vec<_> = entries.map(|entry| entry.unwrap().file_name()).collect();
        names.sort();
        names
    }

    fn command(&self) -> Command {
        self.command_by(&[])
    }

    /// The command behind the words of another that runs it.
    fn command_by(&self, words: &[&str]) -> Command {
        let words = [words, &[env!("CARGO_BIN_EXE_bicycle")]].concat();
        let mut command = Command::new(words[0]);
        command.args(&words[1..]);
        command
            .current_dir(&self.home)
            .env("HOME", &self.home)
            .env_remove("XDG_CACHE_HOME");
        command.stdin(Stdio::null());
        command
    }

    fn run(&self, words: &[&str]) -> Ran {
        ran(self.command().args(words))
    }

    /// A run with the matrices of the plan pair.
    fn run_plan_pair(&self, words: &[&str]) -> Ran {
        ran(self.command().args(words).args(PLAN_PAIR))
    }

    /// Runs with the words of one line.
    fn run_line(&self, line: &str) -> Ran {
        self.run(&line.split(' ').collect::<Vec<_>>())
    }
}

impl Drop for User {
    fn drop(&mut self) {
        let _ = fs::remove_dir_all(&self.home);
    }
}

fn ran(command: &mut Command) -> Ran {
    let output = command.output().unwrap();
    let text = |bytes| String::from_utf8(bytes).unwrap();
    let status = output.status.code().expect("the command ends by itself");
    Ran {
        out: text(output.stdout),
        err: text(output.stderr),
        status,
    }
}

impl Ran {
    #[track_caller]
    fn answers(&self, out: &str) {
        assert_eq!((&self.out[..], &self.err[..], self.status), (out, "", 0));
    }

    /// One sentence on standard error with these words in it.
    #[track_caller]
    fn says(&self, words: &str) {
        assert!(
            self.err.starts_with("bicycle: ") && self.err.contains(words),
            "{self:?}"
        );
        assert!(
            self.err.ends_with(".\n") && self.err.lines().count() == 1,
            "{self:?}"
        );
    }

    #[track_caller]
    fn refuses(&self, number: u32, words: &str) {
        assert_eq!(
            (&self.out[..], self.status),
            (&format!("refused={number}\n")[..], 1)
        );
        self.says(words);
    }

    #[track_caller]
    fn fails(&self, words: &str) {
        assert_eq!((&self.out[..], self.status), ("", 2));
        self.says(words);
    }

    #[track_caller]
    fn is_bad_usage(&self, words: &str) {
        assert_eq!((&self.out[..], self.status), ("", 2), "{self:?}");
        let (sentence, usage) = self.err.split_once('\n').unwrap();
        assert!(
            sentence.starts_with("bicycle: ") && sentence.contains(words),
            "{self:?}"
        );
        assert!(usage.starts_with("Usage: bicycle "), "{self:?}");
    }
}

/// The words that print the pages of help.
const HELP: [&str; 6] = [
    "--help",
    "build --help",
    "check -h",
    "lookup --help",
    "native -h",
    "plan -h",
];

/// Every example of every page of help, and of the page about strings, prints what the page says.
/// The first lookup builds gross, and so does the example of `build`.
#[test]
fn examples() {
    let user = User::new("examples");
    let mut pages = vec![];
    for words in HELP {
        let help = user.run_line(words);
        assert_eq!((&help.err[..], help.status), ("", 0));
        assert!(help.out.starts_with("Usage: bicycle "));
        assert!(!help.out.contains(['{', '}']), "{}", help.out);
        pages.push(help.out);
    }
    pages.push(include_str!("../../docs/STRINGS.md").into());
    let mut counts = vec![];
    for page in &pages {
        let examples = examples_of(page);
        counts.push(examples.len());
        for (line, shown) in examples {
            match line.split_once(' ').unwrap() {
                ("cat", file) => fs::write(user.path(file), shown).unwrap(),
                ("bicycle", words) => user.run_line(words).answers(&shown),
                _ => panic!("{line}"),
            }
        }
    }
    assert_eq!(counts, [1, 1, 1, 2, 1, 2, 3]);
    let kept = fs::read(user.path(".cache/bicycle/gross.table")).unwrap();
    assert!(kept == fs::read(user.path("gross.table")).unwrap());
}

/// The commands of a page behind `$`, each with the lines that it prints, all of them indented.
fn examples_of(page: &str) -> Vec<(&str, String)> {
    let mut found: Vec<(&str, String)> = vec![];
    let blocks = page.split("\n\n").filter(|block| block.contains("  $ "));
    for line in blocks.flat_map(str::lines).filter(|l| l.starts_with("  ")) {
        match line.trim_start().strip_prefix("$ ") {
            Some(command) => found.push((command, String::new())),
            None => found.last_mut().unwrap().1 += &(line.trim_start().to_owned() + "\n"),
        }
    }
    found
}

/// Every page of help says which end of a text is qubit 0, that a text is data, and what to do with
/// it in a right-to-left page; and where there are instructions, whose letter is first.
#[test]
fn pages_say_the_direction() {
    let user = User::new("direction");
    for words in HELP {
        let page = user.run_line(words).out.replace('\n', " ");
        for said in [
            "twelve letters, qubit 11 first and qubit 0, the pivot, last, in every language",
            "XIIIIIIIIIII is 2048, and IIIIIIIIIIIX is 1.",
            "never mirrored, and its letters are not translated",
            "In a right-to-left page isolate a text, and each line of an answer, as left-to-right",
            "docs/STRINGS.md",
        ] {
            assert!(page.contains(said), "{words}: {said}");
        }
        let shown = page.contains("expand=");
        let said = page.contains("In an instruction meas(X,Z) qubit 0 comes first");
        assert_eq!(shown, said, "{words}");
    }
}

/// What stands where a letter is due after a paste or a change of case, and is none.
#[test]
fn no_letters() {
    let user = User::new("no-letters");
    let refused = |text: &str, place: usize, c: char, end: &str| {
        let here = format!("character {place} is U+{:04X}{end}", c as u32);
        user.run(&["lookup", text]).refuses(13, &here);
    };
    // in front and behind, as a right-to-left pack puts them
    for mark in ['\u{61c}', '\u{200e}', '\u{200f}']
        .into_iter()
        .chain('\u{202a}'..='\u{202e}')
        .chain('\u{2066}'..='\u{2069}')
    {
        let end = ", an invisible mark of direction.";
        refused(&format!("{mark}IIIIXYIIIIIX"), 1, mark, end);
        refused(&format!("IIIIXYIIIIIX{mark}"), 13, mark, end);
    }
    // I by the Turkish rules of case; I, X, Z and Y as Greek, as Cyrillic, as full-width letters
    // and as Roman numerals
    let others = "\u{131}\u{130}\u{399}\u{3a7}\u{396}\u{3a5}\u{406}\u{425}\u{4ae}\
                  \u{ff29}\u{ff38}\u{ff3a}\u{ff39}\u{2160}\u{2169}";
    for other in others.chars() {
        refused(&format!("IIII{other}YIIIIIX"), 5, other, ".");
        let twelve_bytes = format!("IIII{other}{}", &"YIIIIIX"[other.len_utf8() - 1..]);
        assert_eq!(twelve_bytes.len(), 12);
        refused(&twelve_bytes, 5, other, ".");
    }
    // a sign and Stim's identity; a phase of Qiskit's makes a text too long
    let look = |text: &str| user.run(&["lookup", "--", text]);
    look("-XYIIIIIIIII").refuses(13, "character 1 is '-'.");
    look("+X_____YX____").refuses(13, "character 1 is '+'.");
    look("X_____YX____").refuses(13, "character 2 is '_'.");
    look("iIIIIXYIIIIIX").refuses(13, "here are 13.");
    look("IIIIXYIIIIIX\n").refuses(13, "character 13 is U+000A.");
    look("IIIIXYIIIII").refuses(13, "here are 11.");
    assert!(user.names().is_empty(), "no table is built for these");
}

#[test]
fn bad_usage() {
    let user = User::new("bad-usage");
    user.run(&[]).is_bad_usage("A command is missing");
    user.run(&["help"]).is_bad_usage("no command \"help\"");
    user.run(&["--code"]).is_bad_usage("no command \"--code\"");
    for command in ["build", "check", "lookup", "native"] {
        user.run(&[command]).is_bad_usage("is missing");
        user.run(&[command, "1", "2"])
            .is_bad_usage("\"2\" is one word too many");
        user.run(&[command, "1", "--foo"])
            .is_bad_usage("has no option \"--foo\"");
        user.run(&[command, "1", "--code"])
            .is_bad_usage("--code needs a value");
        user.run(&[command, "1", "--code", "Gross"])
            .is_bad_usage("\"Gross\" is neither");
        user.run(&[command, "1", "--mx", PLAN_MX])
            .is_bad_usage("given together");
        user.run(&[command, "1", "--my", PLAN_MY])
            .is_bad_usage("given together");
        let both = [
            command,
            "1",
            "--code=gross",
            "--mx",
            PLAN_MX,
            "--my",
            PLAN_MY,
        ];
        user.run(&both).is_bad_usage("not both");
        let twice = [command, "1", "--code", "gross", "--code=gross"];
        user.run(&twice).is_bad_usage("--code is given twice");
        for digits in [
            "",
            "0",
            &PLAN_MX[1..],
            &format!("{PLAN_MX}0"),
            &PLAN_MX.replace('1', "x"),
        ] {
            let words = [command, "1", "--mx", PLAN_MX, "--my", digits];
            user.run(&words).is_bad_usage("--my takes 36 digits");
        }
    }
    user.run(&["native", "-1"])
        .is_bad_usage("has no option \"-1\"");
    user.run(&["check", "1", "--pivot-free"])
        .is_bad_usage("has no option");
    user.run(&["lookup", "1", "--pivot-free=yes"])
        .is_bad_usage("has no option");
    for number in ["", "x", "+1", "1.0", "0x1", "١"] {
        user.run(&["native", number]).is_bad_usage("N is a number");
    }
    user.run(&["plan", "1", "2"])
        .is_bad_usage("\"2\" is one word too many");
    user.run(&["plan", "--code", "silver"])
        .is_bad_usage("\"silver\" is neither");
    user.run(&["build", "t", "--queue", "./t"])
        .is_bad_usage("the same file");
    assert!(user.names().is_empty(), "nothing is left");
}

#[test]
fn lookups() {
    let user = User::new("lookups");
    let look = |words: &[&str]| user.run_plan_pair(&[&["lookup"], words].concat());
    look(&["IIIIXYIIIIIX"]).answers(LISTING);
    look(&["iiiixyiiiiix"]).answers(LISTING);
    look(&["--", "IIIIXYIIIIIX"]).is_bad_usage("too many");
    let words = [
        "lookup",
        "--mx",
        PLAN_MX,
        "--my",
        PLAN_MY,
        "--",
        "IIIIXYIIIIIX",
    ];
    user.run(&words).answers(LISTING);
    look(&["IIIIXYIIIIII", "--pivot-free"]).answers(
        "measures=IIIIXYIIIIIZ\ncount=0\nshifts=2\nbase=535\nexpand=aut(5,5) meas(Z,Y) aut(1,1)\n",
    );
    look(&["IIIIIIIIIIII"]).refuses(5, "identity");
    look(&["IIIIXYIIIIIX", "--pivot-free"]).refuses(6, "qubit 0, which is the last letter");
    // mirrored it is another string, which has no plan with these matrices
    look(&["XIIIIIYXIIII"]).refuses(7, "no plan");
    look(&["YYYYYYYYYYYY"]).refuses(7, "no plan");
    look(&["YYYYYYYYYYYI", "--pivot-free"]).refuses(7, "no plan");
    look(&[""]).refuses(13, "qubit 11 first and qubit 0 last: here are 0.");
    look(&["IIIIXYIIIIIXI"]).refuses(13, "here are 13");
    look(&["IIIIXYIIIII1"]).refuses(13, "character 12 is '1'.");
    let mut raw = user.command();
    ran(raw.arg("lookup").arg(OsStr::from_bytes(b"\xffIIIXYIIIIIX"))).refuses(13, "character 1 ");
    let two = PLAN_MX.replacen('1', "2", 1);
    user.run(&["lookup", "IIIIXYIIIIIX", "--mx", &two, "--my", PLAN_MY])
        .refuses(3, "0 or 1");
    // a bad text is told before a bad pair, and neither leaves a file
    user.run(&["lookup", "A", "--mx", &two, "--my", PLAN_MY])
        .refuses(13, "'A'");
    assert_eq!(
        fs::read_dir(user.path(".cache/bicycle")).unwrap().count(),
        1
    );
}

#[test]
fn natives() {
    let user = User::new("natives");
    user.run_plan_pair(&["native", "440"]).answers(
        "measures=IIIIIZIIIIIX\nbase=440\nexpand=aut(4,5) meas(X,Z) aut(2,1)\n\
         rotation=440\nexpand=meas(Z,I) aut(4,5) meas(X,Z) aut(2,1) meas(Y,I)\n",
    );
    let pivotless = user.run_plan_pair(&["native", "0"]);
    let lines = "measures=IIIIIXIIIIII\nbase=0\nexpand=aut(0,0) meas(I,X) aut(0,0)\nrefused=10\n";
    assert_eq!((&pivotless.out[..], pivotless.status), (lines, 1));
    pivotless.says("pivot");
    for number in ["540", "4294967296", "99999999999999999999"] {
        user.run(&["native", number]).refuses(11, "0 to 539");
    }
    let two = PLAN_MX.replacen('1', "2", 1);
    user.run(&["native", "540", "--mx", &two, "--my", PLAN_MY])
        .refuses(3, "0 or 1");
    // the two codes differ, and gross is the default
    let gross = user.run(&["native", "30"]);
    assert_eq!(
        gross.out,
        user.run(&["native", "30", "--code", "gross"]).out
    );
    assert_ne!(
        gross.out,
        user.run(&["native", "30", "--code=two-gross"]).out
    );
}

#[test]
fn plans() {
    let user = User::new("plans");
    let paper = format!("mx={PLAN_MX}\nmy={PLAN_MY}\nbase=440\nrotation=533\n");
    let piped = |paper: &str| {
        fs::write(user.path("paper"), paper).unwrap();
        let input = File::open(user.path("paper")).unwrap();
        ran(user.command().arg("plan").stdin(input))
    };
    piped(&paper).answers(LISTING);
    user.run(&["plan", "paper"]).answers(LISTING);
    user.run_plan_pair(&["plan", "paper"]).answers(LISTING);
    for other in [["--code", "gross"], ["--code", "two-gross"]] {
        user.run(&[&["plan", "paper"], &other[..]].concat())
            .is_bad_usage("states other matrices");
    }
    piped("").refuses(12, "mx=");
    piped(&paper.replace("533", "540")).refuses(11, "0 to 539");
    user.run_plan_pair(&["plan", "paper"])
        .refuses(11, "0 to 539");
    piped(&paper.replace("533", "0")).refuses(10, "pivot");
    piped(&paper.replacen('1', "2", 1)).refuses(3, "0 or 1");
    piped(paper.trim_end()).refuses(12, "mx=");
    let most = paper.clone() + &"rotation=533\n".repeat(255);
    assert_eq!(
        piped(&most)
            .out
            .lines()
            .filter(|line| line.starts_with("rotation="))
            .count(),
        256
    );
    // longer than is read: the 257th decides
    piped(&(most + &"rotation=533\n".repeat(10_000))).refuses(12, "256");
    user.run(&["plan", "missing"])
        .fails("\"missing\" cannot be read: No such file");
    user.run(&["plan", "."])
        .fails("\".\" cannot be read: Is a directory");
}

/// What a build of the plan pair prints.
const BUILT: &str = "entries=54\ndepth=1\n";

#[test]
fn tables_are_written() {
    let user = User::new("written");
    let build = |words: &[&str]| user.run_plan_pair(&[&["build"], words].concat());
    build(&["t", "--queue", "q"]).answers(BUILT);
    let table = fs::read(user.path("t")).unwrap();
    assert_eq!(table.len(), TABLE_LENGTH);
    assert_eq!(table[4 * 262337..][..4], 1558_u32.to_le_bytes());
    let queue = fs::read(user.path("q")).unwrap();
    assert_eq!(queue.len(), TABLE_LENGTH);
    let strings = queue.chunks(4).filter(|string| *string != [0; 4]);
    assert_eq!(strings.count(), 53);

    // what a link leads to is written over, and the link stays
    fs::write(user.path("t"), "short").unwrap();
    symlink("t", user.path("link")).unwrap();
    build(&["link"]).answers(BUILT);
    assert_eq!(fs::read_link(user.path("link")).unwrap(), Path::new("t"));
    assert!(table == fs::read(user.path("t")).unwrap());

    build(&["missing/t"]).fails("\"missing/t\" cannot be written: No such file");
    build(&["."]).fails("\".\" cannot be written: Is a directory");
    build(&["new", "--queue", "missing/q"]).fails("\"missing/q\" cannot be written: No such file");
    let two = PLAN_MX.replacen('1', "2", 1);
    user.run(&["build", "new", "--mx", &two, "--my", PLAN_MY])
        .refuses(3, "0 or 1");
    assert_eq!(user.names(), ["link", "q", "t"], "nothing else is left");
}

/// A limit on the length of files stands for a disk that is full.
#[test]
fn a_table_that_does_not_fit() {
    let user = User::new("does-not-fit");
    fs::write(user.path("t"), "before").unwrap();
    let limited = "trap '' XFSZ; ulimit -f 1000; exec \"$@\"";
    let mut command = user.command_by(&["sh", "-c", limited, "sh"]);
    ran(command.args(["build", "t"]).args(PLAN_PAIR)).fails("\"t\" cannot be written: File too");
    assert_eq!(fs::read(user.path("t")).unwrap(), b"before");
    assert_eq!(user.names(), ["t"], "nothing else is left");

    let mut command = user.command_by(&["sh", "-c", limited, "sh"]);
    let run = ran(command.args(["lookup", "IIIIXYIIIIIX"]).args(PLAN_PAIR));
    assert_eq!((&run.out[..], run.status), (LISTING, 0));
    run.says("The table is not kept");
    let kept = fs::read_dir(user.path(".cache/bicycle")).unwrap();
    assert_eq!(kept.count(), 0, "nothing is left");
}

/// What is no file, as a pipe, is written as it is.
#[test]
fn a_table_into_a_pipe() {
    let user = User::new("pipe");
    let pipe = user.path("pipe");
    assert!(
        Command::new("mkfifo")
            .arg(&pipe)
            .status()
            .unwrap()
            .success()
    );
    let copy = File::create(user.path("copy")).unwrap();
    let mut reader = Command::new("cat");
    let mut reader = reader.arg(&pipe).stdout(copy).spawn().unwrap();
    let run = user.run_plan_pair(&["build", "pipe"]);
    if !fs::metadata(&pipe).unwrap().file_type().is_fifo() {
        reader.kill().unwrap();
        panic!("the pipe is replaced by a file");
    }
    run.answers(BUILT);
    assert!(reader.wait().unwrap().success());
    let read = fs::read(user.path("copy")).unwrap();
    assert_eq!(read.len(), TABLE_LENGTH);
    assert_eq!(read[4 * 262337..][..4], 1558_u32.to_le_bytes());
}

#[test]
fn tables_are_read() {
    let user = User::new("read");
    user.run_plan_pair(&["build", "t"]).answers(BUILT);
    user.run_plan_pair(&["check", "t"]).answers("accepted\n");
    user.run_plan_pair(&["lookup", "IIIIXYIIIIIX", "--table", "t"])
        .answers(LISTING);
    // for other matrices the entry of string 1 is the first that is wrong
    let rejected = user.run(&["check", "t"]);
    assert_eq!((&rejected.out[..], rejected.status), ("rejected=1\n", 1));
    rejected.says("The entry of IIIIIIIIIIIX, qubit 11 first,");
    user.run(&["lookup", "IIIIXYIIIIIX", "--table", "t"])
        .refuses(8, "other matrices");

    let table = fs::read(user.path("t")).unwrap();
    fs::write(user.path("short"), &table[1..]).unwrap();
    fs::write(user.path("long"), [&table[..], b"+"].concat()).unwrap();
    let lengths = [
        ("short", "67108863"),
        ("long", "67108865"),
        ("/dev/zero", "more"),
    ];
    for words in [&["check"][..], &["lookup", "IIIIXYIIIIIX", "--table"]] {
        let run = |file| user.run(&[words, &[file]].concat());
        for (file, length) in lengths {
            let sentence = format!("A table has 67108864 bytes, and {file:?} has {length}.");
            run(file).refuses(1, &sentence);
        }
        run("missing").fails("\"missing\" cannot be read: No such file");
        run(".").fails("\".\" cannot be read: Is a directory");
    }
}

/// A table made by hand may hold a plan that is longer than a listing: its walk is true, and long.
#[test]
fn a_plan_too_long_to_list() {
    let user = User::new("too-long");
    let walk = walk_in_gross(257);
    let mut table = vec![0; TABLE_LENGTH];
    for (depth, &(n, string)) in (0..).zip(&walk) {
        table[4 * string as usize..][..4].copy_from_slice(&(1024 * depth + n + 1).to_le_bytes());
    }
    fs::write(user.path("t"), table).unwrap();
    let text = |depth: usize| written(|out| bicycle::display(walk[depth].1, out)).unwrap();
    let longest = user.run(&["lookup", &text(256), "--table", "t"]);
    assert_eq!((&longest.err[..], longest.status), ("", 0));
    let front = format!("measures={}\ncount=256\nshifts=1026\n", text(256));
    assert!(longest.out.starts_with(&front), "{}", longest.out);
    user.run(&["lookup", &text(257), "--table", "t"])
        .refuses(12, "The plan has 257 rotations, and a listing 256 at most");
}

/// A native's number and string, then rotations, each with the string that it leads to, all of
/// them different.
fn walk_in_gross(rotations: usize) -> Vec<(u32, u32)> {
    let gross = Code::Gross.pair();
    let strings: Vec<u32> = (0..NATIVES)
        .map(|n| bicycle::measures(&gross.mx, &gross.my, n).unwrap())
        .collect();
    let kept = (0..)
        .zip(&strings)
        .filter(|&(n, s)| !strings[n as usize + 1..].contains(s));
    let by_pivot: Vec<(u32, u32)> = kept
        .map(|(n, &s)| (n, s))
        .filter(|(_, s)| s & PIVOT != 0)
        .collect();
    // the first has no letter beside the pivot, and no rotation changes it
    let mut walk = vec![by_pivot[1]];
    while walk.len() <= rotations {
        let (_, from) = *walk.last().unwrap();
        let next = by_pivot
            .iter()
            .map(|&(n, s)| (n, bicycle::conjugate_with(from, s & !PIVOT).unwrap()))
            .find(|&(_, to)| walk.iter().all(|&(_, passed)| passed != to));
        walk.push(next.expect("another string"));
    }
    walk
}

#[test]
fn kept_tables() {
    let user = User::new("kept-tables");
    let look = || user.run_plan_pair(&["lookup", "IIIIXYIIIIIX"]);
    look().answers(LISTING);
    let kept = user.path(KEPT);
    let table = fs::read(&kept).unwrap();
    assert_eq!(table.len(), TABLE_LENGTH);
    assert_eq!(
        fs::read_dir(kept.parent().unwrap()).unwrap().count(),
        1,
        "nothing beside it"
    );

    // what is kept is what is read: an entry that is no more
    let mut damaged = table.clone();
    damaged[4 * 262337..][..4].fill(0);
    fs::write(&kept, &damaged).unwrap();
    look().refuses(7, "no plan");
    damaged[4 * 262337..][..4].fill(0xff);
    fs::write(&kept, &damaged).unwrap();
    look().refuses(8, "damaged: remove ");
    assert!(look().err.contains(KEPT));
    fs::remove_file(&kept).unwrap();
    look().answers(LISTING);

    fs::write(&kept, &table[..1000]).unwrap();
    let again = look();
    assert_eq!((&again.out[..], again.status), (LISTING, 0));
    again.says("has 1000 bytes");
    assert!(table == fs::read(&kept).unwrap());

    // every string has an entry in the tables of the two codes
    File::create(user.path(".cache/bicycle/gross.table"))
        .unwrap()
        .set_len(TABLE_LENGTH as u64)
        .unwrap();
    user.run(&["lookup", "IIIIXYIIIIIX"])
        .refuses(7, "damaged: remove ");
}

#[test]
fn where_tables_are_kept() {
    let user = User::new("where-tables-are-kept");
    let look = |xdg: Option<&OsStr>, home: Option<&OsStr>| {
        let mut command = user.command();
        command.env_remove("HOME");
        xdg.map(|folder| command.env("XDG_CACHE_HOME", folder));
        home.map(|folder| command.env("HOME", folder));
        command.args(["lookup", "IIIIXYIIIIIX", "--mx", PLAN_MX, "--my", PLAN_MY]);
        ran(&mut command)
    };
    let (xdg, home) = (user.path("xdg"), user.path("home"));
    look(Some(xdg.as_os_str()), Some(home.as_os_str())).answers(LISTING);
    assert!(xdg.join("bicycle").is_dir() && !home.exists());
    // a relative path counts as none
    look(Some(OsStr::new("relative")), Some(home.as_os_str())).answers(LISTING);
    assert!(home.join(KEPT).is_file() && !user.path("relative").exists());

    // nowhere, or in no folder: the answer is given all the same
    File::create(user.path("file")).unwrap();
    for (run, words) in [
        (look(None, None), "neither XDG_CACHE_HOME nor HOME"),
        (
            look(None, Some(user.path("file").as_os_str())),
            "cannot be written",
        ),
        (
            look(Some(OsStr::new("/dev/null")), None),
            "cannot be written",
        ),
    ] {
        assert_eq!((&run.out[..], run.status), (LISTING, 0));
        run.says(words);
    }
}

#[test]
fn an_answer_that_nobody_takes() {
    let user = User::new("nobody");
    let (reader, writer) = io::pipe().unwrap();
    drop(reader);
    let full = File::options().write(true).open("/dev/full").unwrap();
    for out in [Stdio::from(writer), Stdio::from(full)] {
        let run = ran(user.command().args(["native", "440"]).stdout(out));
        run.fails("The answer cannot be written to standard output");
    }
}
