//! docs/bench.svg: a bar for each ratio, with its limit.

mod draw;
mod scale;

use crate::machine::{COMPILER, processor};
use crate::numbers;
use crate::table::{Line, Table};
use draw::{Text, opening, rectangle, upright};
use scale::Scale;

// Columns: numbers of the case and ratio end at these places, bars begin and end at those.
const LEFT: f64 = 24.0;
const LABEL_END: f64 = 140.0;
const RATIO_END: f64 = 200.0;
const BARS_START: f64 = 220.0;
const BARS_END: f64 = 720.0;
const WIDTH: f64 = 744.0;

// From the top: the feet of the lines above the bars, and where the first table begins.
const TITLE: f64 = 34.0;
const SUBTITLE: f64 = 56.0;
const LEGEND: f64 = 86.0;
const TABLES: f64 = 100.0;

// Heights.
const HEADING: f64 = 36.0;
const ROW: f64 = 24.0;
const BAR: f64 = 14.0;
/// The scale and its name.
const FOOT: f64 = 58.0;

const WITHIN: &str = "#2f6fb0";
const OVER: &str = "#c4500f";
const INK: &str = "#1b1f24";
const FAINT: &str = "#57606a";
const GRID: &str = "#d8dee4";

pub fn svg(tables: &[Table]) -> String {
    let scale = Scale::reaching(largest(tables), BARS_START, BARS_END);
    let bottom = TABLES + tables.iter().map(height).sum::<f64>();
    [
        opening(WIDTH, bottom + FOOT),
        title(),
        legend(),
        bars(tables, &scale),
        foot(bottom, &scale),
        "</svg>\n".into(),
    ]
    .concat()
}

/// The largest number that the scale has to show.
fn largest(tables: &[Table]) -> f64 {
    let lines = tables.iter().flat_map(|table| &table.lines);
    lines.fold(0.0, |most, line| most.max(line.limit).max(line.ratio()))
}

fn height(table: &Table) -> f64 {
    HEADING + ROW * table.lines.len() as f64
}

fn title() -> String {
    let words = "Time of one call: ours over the other's, on the same input";
    let place = format!("{}; {COMPILER}", processor());
    Text::at(LEFT, TITLE).large().of(words) + &Text::at(LEFT, SUBTITLE).coloured(FAINT).of(&place)
}

fn legend() -> String {
    let middle = LEGEND - 4.5;
    [
        bar(LEFT, middle, 24.0, WITHIN),
        Text::at(LEFT + 32.0, LEGEND).of("within its limit"),
        bar(LEFT + 152.0, middle, 24.0, OVER),
        Text::at(LEFT + 184.0, LEGEND).of("over it"),
        limit_mark(LEFT + 256.0, middle),
        Text::at(LEFT + 266.0, LEGEND).of("limit"),
    ]
    .concat()
}

fn bars(tables: &[Table], scale: &Scale) -> String {
    let mut out = String::new();
    let mut top = TABLES;
    for table in tables {
        out += &table_drawn(table, top, scale);
        top += height(table);
    }
    out
}

fn table_drawn(table: &Table, top: f64, scale: &Scale) -> String {
    let words = format!("{} ({}) beside {}", table.name, table.numbers, table.beside);
    let first = top + HEADING;
    let mut out = Text::at(LEFT, first - 7.0).bold().of(&words);
    for number in scale.ticks() {
        out += &upright(scale.place(number), first, top + height(table), GRID, 1.0);
    }
    for (row, line) in table.lines.iter().enumerate() {
        out += &line_drawn(line, first + ROW * (row as f64 + 0.5), scale);
    }
    out
}

/// The ratio has a column of its own, where neither bar nor limit can run through it.
fn line_drawn(line: &Line, middle: f64, scale: &Scale) -> String {
    let foot = middle + 4.5;
    let colour = if line.is_over() { OVER } else { WITHIN };
    let length = scale.place(line.ratio()) - BARS_START;
    let ratio = Text::at(RATIO_END, foot).ending().bold().coloured(colour);
    [
        Text::at(LABEL_END, foot).ending().of(&line.label),
        ratio.of(&numbers::ratio(line.ratio())),
        bar(BARS_START, middle, length, colour),
        limit_mark(scale.place(line.limit), middle),
    ]
    .concat()
}

fn bar(start: f64, middle: f64, length: f64, colour: &str) -> String {
    rectangle(start, middle - BAR / 2.0, length, BAR, colour)
}

/// As high as a row, so that equal limits one under another make one line.
fn limit_mark(place: f64, middle: f64) -> String {
    upright(place, middle - ROW / 2.0, middle + ROW / 2.0, INK, 2.0)
}

/// The numbers of the scale, and what they are.
fn foot(bottom: f64, scale: &Scale) -> String {
    let number = |number| {
        Text::at(scale.place(number), bottom + 18.0)
            .centred()
            .coloured(FAINT)
            .of(&numbers::short(number))
    };
    let name = Text::at((BARS_START + BARS_END) / 2.0, bottom + 42.0)
        .centred()
        .coloured(FAINT);
    let name = name.of("ratio of the times; below 1 ours is quicker");
    scale.ticks().map(number).chain([name]).collect()
}
