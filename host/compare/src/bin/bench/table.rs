//! Markdown tables: a row for each thing, and for each column its best and its median.

use crate::said::{Said, Summary};

/// What a row shows of the numbers that the children said, by name.
pub enum Shown {
    Measured(String),
    /// The first by the second.
    Ratio(String, String),
    /// The bytes that pass in a time.
    Rate(String, usize),
}

pub struct Row {
    what: String,
    shown: Shown,
}

impl Row {
    pub fn new(what: impl Into<String>, shown: Shown) -> Row {
        let what = what.into();
        Row { what, shown }
    }

    pub fn measured(what: impl Into<String>, name: impl Into<String>) -> Row {
        Row::new(what, Shown::Measured(name.into()))
    }

    pub fn ratio(what: &str, over: impl Into<String>, under: impl Into<String>) -> Row {
        Row::new(what, Shown::Ratio(over.into(), under.into()))
    }
}

/// A table whose columns are the beginnings of names, and what stands above them.
pub fn print(title: &str, columns: &[(&str, String)], said: &Said, rows: &[Row]) {
    let heads = columns
        .iter()
        .map(|(head, _)| format!(" {head}best | {head}median |"));
    println!("| {title} |{}", heads.collect::<String>());
    println!("|---|{}", "---|---|".repeat(columns.len()));
    for row in rows {
        let cells = columns
            .iter()
            .map(|(_, prefix)| cells(row.shown.summary(said, prefix)));
        println!("| {} |{}", row.what, cells.collect::<String>());
    }
    println!();
}

impl Shown {
    fn summary(&self, said: &Said, prefix: &str) -> Option<Summary> {
        let summary = |name: &String| said.summary(&format!("{prefix}{name}"));
        match self {
            Shown::Measured(name) => summary(name),
            Shown::Ratio(over, under) => Some(summary(over)?.by(&summary(under)?)),
            Shown::Rate(name, bytes) => Some(summary(name)?.rate_of(*bytes)),
        }
    }
}

fn cells(summary: Option<Summary>) -> String {
    let Some(Summary { best, median, unit }) = summary else {
        return " - | - |".into();
    };
    format!(" {} | {} |", number(best, &unit), number(median, &unit))
}

/// A number in a multiple of its unit that suits, with three digits or more.
pub fn number(value: f64, unit: &str) -> String {
    let (scale, unit) = match unit {
        "s" if value >= 1.0 => (1.0, " s"),
        "s" if value >= 1e-3 => (1e-3, " ms"),
        "s" if value >= 1e-7 => (1e-6, " µs"),
        "s" => (1e-9, " ns"),
        "B" if value >= 1_048_576.0 => (1_048_576.0, " MiB"),
        "B" => (1024.0, " KiB"),
        "B/s" => (1e9, " GB/s"),
        _ => (1.0, ""),
    };
    let value = value / scale;
    let places = if value < 1.0 { 3 } else { 2 };
    format!("{value:.places$}{unit}")
}
