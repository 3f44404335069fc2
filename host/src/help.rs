//! The forms of the commands, and the pages that `--help` prints, one file for each.

use crate::commands;
use crate::words::Form;

/// The page of the whole command.
pub const ALL: &str = include_str!("help/all.txt");

pub static FORMS: [Form; 5] = [
    Form {
        name: "build",
        argument: "TABLE",
        optional: false,
        options: &["--queue"],
        flags: &[],
        page: include_str!("help/build.txt"),
        run: commands::build,
    },
    Form {
        name: "check",
        argument: "TABLE",
        optional: false,
        options: &[],
        flags: &[],
        page: include_str!("help/check.txt"),
        run: commands::check,
    },
    Form {
        name: "lookup",
        argument: "TEXT",
        optional: false,
        options: &["--table"],
        flags: &["--pivot-free"],
        page: include_str!("help/lookup.txt"),
        run: commands::lookup,
    },
    Form {
        name: "native",
        argument: "N",
        optional: false,
        options: &[],
        flags: &[],
        page: include_str!("help/native.txt"),
        run: commands::native,
    },
    Form {
        name: "plan",
        argument: "FILE",
        optional: true,
        options: &[],
        flags: &[],
        page: include_str!("help/plan.txt"),
        run: commands::plan,
    },
];

/// A page with what several pages say put in.
pub fn printed(page: &str) -> String {
    page.replace("{pair}\n", include_str!("help/pair.txt"))
        .replace("{text}\n", include_str!("help/text.txt"))
        .replace("{instructions}\n", include_str!("help/instructions.txt"))
}

/// The first paragraph of a page.
pub fn usage(page: &'static str) -> &'static str {
    page.split("\n\n").next().unwrap_or(page)
}
