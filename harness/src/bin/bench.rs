//! Times the compiled library and the second implementation on the same calls, and counts their
//! instructions (docs/PERFORMANCE.md). Where names are found alone, a plain matcher over the same words
//! stands in for the second implementation.
//!
//! `bench write FILE` writes the rows of all cases to a file of Markdown, docs/BENCHMARK.md, and prints
//! a summary. `bench instructions` prints the rows without times. `bench repeat SIDE CASE CALLS` makes
//! the call of one case, counted from 0, so many times and prints nothing: for a profiler.

#[path = "bench/cases.rs"]
mod cases;
#[path = "bench/measure.rs"]
mod measure;
#[path = "bench/scenes.rs"]
mod scenes;
#[path = "bench/sides.rs"]
mod sides;
#[path = "bench/stage.rs"]
mod stage;

use cases::{Case, Group};
use measure::{instructions, make_counted, repeat, times, Both, COUNT, ROUNDS};
use std::collections::HashMap;
use std::error::Error;
use std::fmt::Write;
use std::process::Command;
use std::{env, fs};

/// How the file of all rows begins.
const FILE_HEAD: &str = "\
# Benchmark: `make bench` writes this file

What the columns are, and where the library stands, is in docs/PERFORMANCE.md.
";

/// The sentence that names the toolchain by which the library was made, if `rt version` tells it.
fn toolchain() -> String {
    let said =
        Command::new("rt").arg("version").output().map(|said| said.stdout).unwrap_or_default();
    match String::from_utf8_lossy(&said).split_whitespace().next() {
        Some(kit) => format!("\nThe library was made with {kit}.\n"),
        None => String::new(),
    }
}

/// The head of a table with times.
const TIMES_HEAD: &str =
    "| call | library, ns | second, ns | library / second (least-most) | library, instructions | second, instructions | library / second |\n|-|-|-|-|-|-|-|";
/// The head of a table without.
const HEAD: &str =
    "| call | library, instructions | second, instructions | library / second |\n|-|-|-|-|";
/// The head of the summary's table.
const SUMMARY_HEAD: &str =
    "| state | call | library, ns | second, ns | library / second (least-most) | library, instructions | second, instructions | library / second |\n|-|-|-|-|-|-|-|-|";

/// A row of a table, and the figures that the summary takes from it.
struct Row {
    /// The case's name.
    name: String,
    /// The row in Markdown.
    cells: String,
    /// Whether it is the row of a loop.
    is_loop: bool,
    /// The library's instructions over the second implementation's.
    ratio: f64,
}

/// The rows of a group.
struct Table {
    /// The group's heading.
    heading: String,
    /// The names of the rows that the summary shows.
    telling: &'static [&'static str],
    /// All rows.
    rows: Vec<Row>,
}

/// The cases of all groups.
fn all(groups: &mut [Group]) -> impl Iterator<Item = &mut Case> {
    groups.iter_mut().flat_map(|group| &mut group.cases)
}

/// The median of the rounds' figures, the least and the most.
fn spread(mut figures: [f64; ROUNDS]) -> (f64, f64, f64) {
    figures.sort_by(f64::total_cmp);
    (figures[ROUNDS / 2], figures[0], figures[ROUNDS - 1])
}

/// The cells of a case's times.
fn time_cells(case: &mut Case) -> String {
    let rounds = times(case);
    let (library, ..) = spread(rounds.map(|both| both.library));
    let (second, ..) = spread(rounds.map(|both| both.second));
    let (ratio, least, most) = spread(rounds.map(Both::ratio));
    format!("| {library:.1} | {second:.1} | {ratio:.2} ({least:.2}-{most:.2}) ")
}

/// The cells of a case's instructions.
fn count_cells(counts: Both) -> String {
    format!("| {:.0} | {:.0} | {:.2} |", counts.library, counts.second, counts.ratio())
}

/// The row of a case, with its times or without.
fn row(case: &mut Case, counts: Both, timed: bool) -> Row {
    let times = if timed { time_cells(case) } else { String::new() };
    let cells = format!("| {} {times}{}", case.name, count_cells(counts));
    Row { name: case.name.clone(), cells, is_loop: case.is_loop(), ratio: counts.ratio() }
}

/// The counts of the loops, by the names of their cases.
fn loops(groups: &mut [Group], counts: &[Both]) -> HashMap<String, Both> {
    let loops = all(groups).zip(counts).filter(|(case, _)| case.is_loop());
    loops.map(|(case, counts)| (case.name.clone(), *counts)).collect()
}

/// Checks every case, and measures it. The instructions of the loop around a call, which is a case
/// itself, are taken off those of the call.
fn tables(mut groups: Vec<Group>, timed: bool) -> Result<Vec<Table>, Box<dyn Error>> {
    all(&mut groups).for_each(|case| case.check());
    let counts = instructions(all(&mut groups).count())?;
    let loops = loops(&mut groups, &counts);
    let mut counts = counts.into_iter();
    let table = |Group { heading, telling, mut cases }| {
        let measured = cases.iter_mut().zip(&mut counts).map(|(case, counts)| {
            let own = if case.is_loop() { counts } else { counts.less(loops[case.loop_name()]) };
            row(case, own, timed)
        });
        Table { heading, telling, rows: measured.collect() }
    };
    Ok(groups.into_iter().map(table).collect())
}

/// All rows in Markdown, under the headings of their groups.
fn all_rows(tables: &[Table], head: &str) -> String {
    let mut text = String::new();
    for Table { heading, rows, .. } in tables {
        let cells: Vec<&str> = rows.iter().map(|row| row.cells.as_str()).collect();
        let _ = writeln!(text, "\n{heading}:\n\n{head}\n{}", cells.join("\n"));
    }
    text
}

/// The least and the most of the ratios of instructions in each group, and the telling rows.
fn summary(tables: &[Table]) -> String {
    let mut text = String::from("library / second in instructions:\n");
    for Table { heading, rows, .. } in tables {
        let ratios = || rows.iter().filter(|row| !row.is_loop).map(|row| row.ratio);
        let (least, most) = (ratios().fold(f64::MAX, f64::min), ratios().fold(0.0, f64::max));
        let _ = writeln!(text, "  {heading}: {least:.2} to {most:.2}, in {} rows", rows.len());
    }
    let _ = writeln!(text, "\n{SUMMARY_HEAD}");
    for Table { heading, telling, rows } in tables {
        for row in rows.iter().filter(|row| telling.contains(&row.name.as_str())) {
            let _ = writeln!(text, "| {heading} {}", row.cells);
        }
    }
    text
}

/// Does what the arguments say.
fn main() -> Result<(), Box<dyn Error>> {
    let words: Vec<String> = env::args().skip(1).collect();
    let words: Vec<&str> = words.iter().map(String::as_str).collect();
    let mut groups = cases::groups();
    match words[..] {
        ["write", file] => {
            let tables = tables(groups, true)?;
            let rows = all_rows(&tables, TIMES_HEAD);
            fs::write(file, format!("{FILE_HEAD}{}{rows}", toolchain()))?;
            println!("{}\nall rows are in {file}", summary(&tables));
        }
        ["instructions"] => print!("{}", all_rows(&tables(groups, false)?, HEAD)),
        [COUNT, side] => all(&mut groups).for_each(|case| make_counted(case, side)),
        ["repeat", side, case, calls] => {
            let case = all(&mut groups).nth(case.parse()?).ok_or("there is no such case")?;
            repeat(case, side, calls.parse()?);
        }
        _ => {
            let forms = "bench write FILE, bench instructions, or bench repeat SIDE CASE CALLS";
            return Err(forms.into());
        }
    }
    Ok(())
}
