//! What the child processes said.

use std::collections::BTreeMap;
use std::process::Command;

/// Numbers by name, one for each round, and their unit.
#[derive(Default)]
pub struct Said(BTreeMap<String, Series>);

#[derive(Default)]
struct Series {
    unit: String,
    rounds: Vec<f64>,
}

/// The least of the rounds and their median, or what is made of both.
#[derive(Clone)]
pub struct Summary {
    pub best: f64,
    pub median: f64,
    pub unit: String,
}

impl Said {
    /// Runs this program as a child, and takes down what it says.
    pub fn child(&mut self, words: &[&str], prefix: &str) {
        eprintln!("bench: {}", words.join(" "));
        let program = std::env::current_exe().expect("this program's file");
        let output = Command::new(program)
            .arg("child")
            .args(words)
            .output()
            .expect("this program runs");
        assert!(
            output.status.success(),
            "{}",
            String::from_utf8_lossy(&output.stderr)
        );
        for line in String::from_utf8_lossy(&output.stdout).lines() {
            eprintln!("  {line}");
            self.take_down(line, prefix);
        }
    }

    fn take_down(&mut self, line: &str, prefix: &str) {
        let mut words = line.splitn(3, ' ');
        let mut word = || words.next().expect("a name, a number and a unit");
        let series = self.0.entry(format!("{prefix}{}", word())).or_default();
        series.rounds.push(word().parse().expect("a number"));
        series.unit = word().into();
    }

    pub fn summary(&self, name: &str) -> Option<Summary> {
        self.0.get(name).map(Series::summary)
    }

    /// Of each time, the wall time by the CPU time, medians; the greatest.
    pub fn waiting(&self) -> f64 {
        let by_cpu = |(name, wall): (&String, &Series)| {
            let cpu = self.summary(name.strip_suffix("-wall")?)?;
            Some(wall.summary().median / cpu.median)
        };
        self.0.iter().filter_map(by_cpu).fold(0.0, f64::max)
    }
}

impl Series {
    fn summary(&self) -> Summary {
        let mut ascending = self.rounds.clone();
        ascending.sort_by(f64::total_cmp);
        let last = ascending.len() - 1;
        Summary {
            best: ascending[0],
            median: (ascending[last / 2] + ascending[last.div_ceil(2)]) / 2.0,
            unit: self.unit.clone(),
        }
    }
}

impl Summary {
    /// This by another, best by best and median by median.
    pub fn by(self, other: &Summary) -> Summary {
        Summary {
            best: self.best / other.best,
            median: self.median / other.median,
            unit: "".into(),
        }
    }

    /// The rate at which so many bytes pass in this time.
    pub fn rate_of(self, bytes: usize) -> Summary {
        Summary {
            best: bytes as f64 / self.best,
            median: bytes as f64 / self.median,
            unit: "B/s".into(),
        }
    }
}
