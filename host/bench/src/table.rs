//! What was measured, and its lines as text and Markdown.

use crate::cases::{Case, Group, LONG};
use crate::memory;
use crate::numbers;
use crate::timing::Times;

/// The most that a byte of the longest secret may take, as a part of its time at [`LONG`]: no more, but
/// for what two measurements differ by.
const LONGER: f64 = 1.25;

pub struct Table {
    pub name: &'static str,
    pub numbers: &'static str,
    pub beside: &'static str,
    pub lines: Vec<Line>,
}

pub struct Line {
    /// The numbers of its case.
    pub label: String,
    pub limit: f64,
    pub times: Times,
    /// Where there is a least one.
    speed: Option<Speed>,
    beside: Beside,
}

/// What was measured beside the times.
pub struct Beside {
    /// The time of a byte of the longest secret, as a part of that at [`LONG`].
    pub a_byte: Option<f64>,
    /// KiB that a call takes beyond what it is lent, where the system tells.
    pub memory: Option<u64>,
}

/// Megabytes that ours writes in a second: of a million bytes, and whole ones.
struct Speed {
    reached: f64,
    least: f64,
}

impl Speed {
    fn of(bytes: usize, seconds: f64, least: f64) -> Self {
        let reached = (bytes as f64 / seconds / 1e6).floor();
        Speed { reached, least }
    }

    fn is_missed(&self) -> bool {
        self.reached < self.least
    }
}

impl Line {
    /// What was measured of a case whose calls write so many bytes.
    pub fn new(case: &Case, bytes: usize, times: Times, beside: Beside) -> Self {
        let speed = |least| Speed::of(bytes, times.ours, least);
        Line {
            label: numbers::list(&case.numbers),
            limit: case.limit,
            times,
            speed: case.least_speed.map(speed),
            beside,
        }
    }

    pub fn ratio(&self) -> f64 {
        self.times.ours / self.times.other
    }

    pub fn is_over(&self) -> bool {
        self.ratio() > self.limit
    }

    fn cells(&self) -> [String; 6] {
        let over = if self.is_over() { ": over" } else { "" };
        [
            self.label.clone(),
            numbers::microseconds(self.times.ours),
            numbers::microseconds(self.times.other),
            numbers::ratio(self.ratio()),
            numbers::short(self.limit) + over,
            self.times.rounds.to_string(),
        ]
    }

    pub fn as_text(&self) -> String {
        spaced(&self.cells())
    }
}

impl Table {
    /// The table of a group, still without lines.
    pub fn headed(group: &Group) -> Self {
        Table {
            name: group.name,
            numbers: group.numbers,
            beside: group.beside,
            lines: Vec::new(),
        }
    }

    pub fn heading_as_text(&self) -> String {
        spaced(&self.heading())
    }

    pub fn as_markdown(&self) -> String {
        let lines = self.lines.iter().map(|line| barred(&line.cells()));
        let rule = "|---|--:|--:|--:|--:|--:|\n".to_string();
        let notes = self.notes().into_iter();
        let notes = notes.map(|(note, _)| format!("\n{note}\n"));
        [barred(&self.heading()), rule]
            .into_iter()
            .chain(lines)
            .chain(notes)
            .collect()
    }

    /// What else was found of the lines, and whether a limit is not kept there.
    pub fn notes(&self) -> Vec<(String, bool)> {
        let notes = self.speeds().chain(self.long_ones());
        notes.chain(self.memory()).collect()
    }

    /// Says of each line of the longest secret how long a byte takes beside a shorter one.
    fn long_ones(&self) -> impl Iterator<Item = (String, bool)> {
        self.lines.iter().filter_map(|line| {
            let a_byte = line.beside.a_byte?;
            let words = format!(
                "{}: a byte takes {} of its time at L = {}, at most {LONGER}",
                self.name_of(line),
                numbers::short(a_byte),
                numbers::grouped(LONG as u64)
            );
            Some((words, a_byte > LONGER))
        })
    }

    /// Says what a call takes at most, of all the lines of which it is known.
    fn memory(&self) -> Option<(String, bool)> {
        let most = self
            .lines
            .iter()
            .filter_map(|line| line.beside.memory)
            .max()?;
        let words = format!(
            "{}: no call takes more than {most} KiB beyond what it is lent, at most {}",
            self.name,
            memory::MOST
        );
        Some((words, most > memory::MOST))
    }

    /// Says of each line that has a least speed what it reached, and whether that is too little.
    fn speeds(&self) -> impl Iterator<Item = (String, bool)> {
        self.lines.iter().filter_map(|line| {
            let speed = line.speed.as_ref()?;
            let reached = numbers::grouped(speed.reached as u64);
            let words = format!(
                "{}: {reached} MB/s written, at least {}",
                self.name_of(line),
                speed.least
            );
            Some((words, speed.is_missed()))
        })
    }

    /// Says of each limit that is not kept which it is.
    pub fn missed(&self) -> Vec<String> {
        let over = self.lines.iter().filter(|line| line.is_over());
        let ratios = over.map(|line| {
            let ratio = numbers::ratio(line.ratio());
            format!("{}: {ratio}, at most {}", self.name_of(line), line.limit)
        });
        let notes = self.notes().into_iter().filter(|(_, missed)| *missed);
        ratios.chain(notes.map(|(words, _)| words)).collect()
    }

    fn name_of(&self, line: &Line) -> String {
        format!("{} at {} = {}", self.name, self.numbers, line.label)
    }

    fn heading(&self) -> [String; 6] {
        [
            format!("{}: {}", self.name, self.numbers),
            "ours, µs".into(),
            format!("{}, µs", self.beside),
            "ratio".into(),
            "at most".into(),
            "rounds".into(),
        ]
    }
}

/// A line in columns: wide enough for what is measured here, so that a line can be printed before
/// the next is known.
fn spaced([label, ours, other, ratio, limit, rounds]: &[String; 6]) -> String {
    format!("{label:<18}{ours:>12}{other:>20}{ratio:>9}{limit:>11}{rounds:>9}")
}

fn barred(cells: &[String; 6]) -> String {
    format!("| {} |\n", cells.join(" | "))
}

#[cfg(test)]
mod tests {
    use super::*;

    /// A table of one line, which writes a million bytes in `ours` seconds.
    fn table(ours: f64, other: f64) -> Table {
        let case = Case {
            numbers: vec![255, 4_096],
            limit: 2.0,
            least_speed: Some(200.0),
            prepare: Box::new(|| unreachable!("nothing is measured here")),
        };
        let times = Times {
            ours,
            other,
            rounds: 3,
        };
        Table {
            name: "sheet",
            numbers: "rows, L",
            beside: "a plain writer",
            lines: vec![Line::new(
                &case,
                1_000_000,
                times,
                Beside {
                    a_byte: None,
                    memory: None,
                },
            )],
        }
    }

    #[test]
    fn limits_are_kept_up_to_their_last_digit() {
        assert!(table(0.005, 0.0025).missed().is_empty());
        let speed = "sheet at rows, L = 255, 4,096: 200 MB/s written, at least 200";
        assert!(
            table(0.005, 0.0025)
                .as_markdown()
                .ends_with(&format!("\n{speed}\n"))
        );
    }

    #[test]
    fn bytes_of_a_long_secret_and_memory_have_their_limits() {
        let with = |a_byte, memory| {
            let mut table = table(0.002, 0.002);
            table.lines[0].beside = Beside {
                a_byte: Some(a_byte),
                memory: Some(memory),
            };
            table.missed()
        };
        assert!(with(1.25, 256).is_empty());
        let slow = "sheet at rows, L = 255, 4,096: a byte takes 1.5 of its time at L = 4,096, at most 1.25";
        let large = "sheet: no call takes more than 257 KiB beyond what it is lent, at most 256";
        assert_eq!(with(1.5, 0), [slow]);
        assert_eq!(with(1.0, 257), [large]);
    }

    #[test]
    fn each_limit_that_is_missed_is_named() {
        let ratio = "sheet at rows, L = 255, 4,096: 2.500, at most 2";
        let speed = "sheet at rows, L = 255, 4,096: 166 MB/s written, at least 200";
        assert_eq!(table(0.0025, 0.001).missed(), [ratio]);
        assert_eq!(table(0.006, 0.006).missed(), [speed]);
        assert_eq!(table(0.006, 0.0024).missed(), [ratio, speed]);
    }
}
