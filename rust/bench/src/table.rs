//! The tables, as Markdown.
use crate::circuits::{Shape, PRIMES, SUMS_AND_PRODUCTS};
use crate::growth::{Growth, Line, Outputs, DEPTH, EXPONENT, KINDS_DEPTH};
use crate::operations::OPERATIONS;
use crate::timing::{times, Times};
use kidlothe::{MAX_DEPTH, MAX_EXPONENT, MAX_OUTPUT_EXPONENT};
use std::fmt::{Display, Write};

/// A size by name: its depth and exponent.
const SIZES: [(&str, usize, usize); 3] = [("small", 2, 2), ("middle", 8, 5), ("largest", MAX_DEPTH, MAX_EXPONENT)];

pub struct Row {
    operation: &'static str,
    size: usize,
    times: Vec<Times>,
}

/// Every operation at every size, for each prime.
pub fn measured() -> Vec<Row> {
    let mut rows = Vec::new();
    for operation in &OPERATIONS {
        for (size, &(_, depth, exponent)) in SIZES.iter().enumerate() {
            let shape = |prime| Shape { prime, depth, output_exponent: 0, exponent, kinds: SUMS_AND_PRODUCTS };
            let times = PRIMES.map(|prime| times(operation, shape(prime)));
            rows.push(Row { operation: operation.name, size, times: times.to_vec() });
        }
    }
    rows
}

fn head(text: &mut String, run: &str) {
    let _ = writeln!(text, "# Benchmark\n\n{run}.\n");
    let _ = writeln!(text, "The proved library beside a plain Rust implementation of the same algorithms (`rust/plain`, products by `%`), both built for release, timed in one run in turn on the same 32 random circuits of a shape, which have one output and whose gates add or multiply where nothing else is said; medians. A ratio is the proved library's time over the plain one's. Times on such a machine vary from run to run, and ratios somewhat, those of narrow circuits most.\n");
}

fn microseconds(seconds: f64) -> String {
    let micro = seconds * 1e6;
    match micro {
        m if m < 10.0 => format!("{m:.2}"),
        m if m < 100.0 => format!("{m:.1}"),
        m => format!("{m:.0}"),
    }
}

/// The proved library's time and its ratio, in two cells.
fn cells(times: Times) -> String {
    format!("{} | {:.2}", microseconds(times.proved), times.ratio)
}

fn ratios(text: &mut String, rows: &[Row]) {
    let _ = writeln!(text, "## Ratios, for each p\n");
    let primes: Vec<String> = PRIMES.iter().map(|prime| format!("p = {prime}")).collect();
    let _ = writeln!(text, "| operation | circuit | {} | µs, largest p | million words a second |", primes.join(" | "));
    let _ = writeln!(text, "|---|---|{}---|---|", "---|".repeat(PRIMES.len()));
    for row in rows {
        let (name, depth, exponent) = SIZES[row.size];
        let ratios: Vec<String> = row.times.iter().map(|times| format!("{:.2}", times.ratio)).collect();
        let last = row.times[PRIMES.len() - 1];
        let _ = writeln!(
            text,
            "| {} | {name}: D {depth}, k {exponent} | {} | {} | {:.1} |",
            row.operation,
            ratios.join(" | "),
            microseconds(last.proved),
            last.words as f64 / last.proved / 1e6,
        );
    }
}

/// A table of one axis, whose places have a name: for each operation the time at each place, and the ratio.
fn axis<P: Display>(text: &mut String, title: &str, place: &str, lines: &[Line<P>]) {
    let _ = writeln!(text, "\n## {title}\n");
    let names: Vec<String> = lines.iter().map(|line| format!("{} µs | ratio", line.name)).collect();
    let _ = writeln!(text, "| {place} | {} |", names.join(" | "));
    let _ = writeln!(text, "|---|{}", "---|---|".repeat(lines.len()));
    for row in 0..lines[0].points.len() {
        let cells: Vec<String> = lines.iter().map(|line| cells(line.points[row].1)).collect();
        let _ = writeln!(text, "| {} | {} |", lines[0].points[row].0, cells.join(" | "));
    }
}

/// The largest circuit with one output beside that with the most.
fn outputs(text: &mut String, rows: &[Outputs]) {
    let _ = writeln!(text, "\n## Outputs, at D {MAX_DEPTH}, k {MAX_EXPONENT} and the largest p\n");
    let names = [0, MAX_OUTPUT_EXPONENT].map(|k| format!("k_0 = {k} µs | ratio"));
    let _ = writeln!(text, "| operation | {} | k_0 = {MAX_OUTPUT_EXPONENT} over k_0 = 0 |", names.join(" | "));
    let _ = writeln!(text, "|---|{}---|", "---|---|".repeat(names.len()));
    for row in rows {
        let cells = [row.one, row.most].map(cells);
        let _ = writeln!(text, "| {} | {} | {:.2} |", row.name, cells.join(" | "), row.most_over_one);
    }
}

pub fn text(run: &str, rows: &[Row], growth: &Growth) -> String {
    let mut text = String::new();
    head(&mut text, run);
    ratios(&mut text, rows);
    axis(&mut text, &format!("Growth with k, at D {DEPTH} and the largest p"), "k", &growth.by_exponent);
    axis(&mut text, &format!("Growth with D, at k {EXPONENT} and the largest p"), "D", &growth.by_depth);
    let title = format!("Kinds of gates, at D {KINDS_DEPTH}, k {EXPONENT} and the largest p");
    axis(&mut text, &title, "kinds, equally often", &growth.by_kinds);
    outputs(&mut text, &growth.by_outputs);
    let _ = writeln!(text, "\n![Times by k and by D](growth.svg)");
    text
}
