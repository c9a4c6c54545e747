//! A picture of the growth: two panels, time on a scale of powers of ten. A full line is the proved library, a dashed
//! one the plain one.
use crate::growth::{Growth, Line, DEPTH, EXPONENT};
use std::fmt::Write;

const COLOURS: [&str; 4] = ["#1b6ca8", "#c0392b", "#2e8b57", "#7d3c98"];

/// The panels' size and place, and the powers of ten of a microsecond that they show.
const WIDTH: f64 = 380.0;
const HEIGHT: f64 = 320.0;
const TOP: f64 = 60.0;
const LOWEST: i32 = -1;
const HIGHEST: i32 = 3;

struct Panel<'a> {
    left: f64,
    title: String,
    letter: &'a str,
    lines: &'a [Line<usize>],
}

impl Panel<'_> {
    fn x(&self, place: usize) -> f64 {
        let places = &self.lines[0].points;
        let (first, last) = (places[0].0 as f64, places[places.len() - 1].0 as f64);
        self.left + WIDTH * (place as f64 - first) / (last - first)
    }

    fn frame(&self, svg: &mut String) {
        let left = self.left;
        let _ = writeln!(svg, "<text x='{left}' y='{}' font-weight='bold'>{}</text>", TOP - 16.0, self.title);
        for power in LOWEST..=HIGHEST {
            let y = height(10f64.powi(power));
            let label = 10f64.powi(power);
            let _ = writeln!(svg, "<line x1='{left}' x2='{}' y1='{y:.1}' y2='{y:.1}' stroke='#ddd'/>", left + WIDTH);
            let _ = writeln!(svg, "<text x='{}' y='{:.1}' text-anchor='end'>{label} µs</text>", left - 6.0, y + 4.0);
        }
        for &(place, _) in &self.lines[0].points {
            let _ = writeln!(
                svg,
                "<text x='{:.1}' y='{}' text-anchor='middle'>{place}</text>",
                self.x(place),
                TOP + HEIGHT + 18.0
            );
        }
        let _ = writeln!(
            svg,
            "<text x='{}' y='{}' text-anchor='middle'>{}</text>",
            left + WIDTH / 2.0,
            TOP + HEIGHT + 38.0,
            self.letter
        );
    }

    fn curve(&self, svg: &mut String, colour: &str, dashes: &str, points: impl Iterator<Item = (usize, f64)>) {
        let path: Vec<String> =
            points.map(|(place, time)| format!("{:.1},{:.1}", self.x(place), height(time * 1e6))).collect();
        let _ = writeln!(
            svg,
            "<polyline fill='none' stroke='{colour}' stroke-width='2'{dashes} points='{}'/>",
            path.join(" ")
        );
    }

    fn draw(&self, svg: &mut String) {
        self.frame(svg);
        for (line, colour) in self.lines.iter().zip(COLOURS) {
            self.curve(svg, colour, "", line.points.iter().map(|&(place, times)| (place, times.proved)));
            self.curve(
                svg,
                colour,
                " stroke-dasharray='5 4'",
                line.points.iter().map(|&(place, times)| (place, times.plain)),
            );
        }
    }
}

/// The height of a time in microseconds.
fn height(micro: f64) -> f64 {
    let share = (micro.log10() - f64::from(LOWEST)) / f64::from(HIGHEST - LOWEST);
    TOP + HEIGHT * (1.0 - share)
}

fn legend(svg: &mut String, lines: &[Line<usize>]) {
    for (place, (line, colour)) in lines.iter().zip(COLOURS).enumerate() {
        let x = 70.0 + 120.0 * place as f64;
        let _ = writeln!(svg, "<line x1='{x}' x2='{}' y1='18' y2='18' stroke='{colour}' stroke-width='2'/>", x + 24.0);
        let _ = writeln!(svg, "<text x='{}' y='22'>{}</text>", x + 30.0, line.name);
    }
    let _ = writeln!(svg, "<text x='560' y='22'>full: proved, dashed: plain Rust</text>");
}

pub fn drawn(run: &str, growth: &Growth) -> String {
    let mut svg = String::from(
        "<svg xmlns='http://www.w3.org/2000/svg' width='960' height='460' font-family='sans-serif' font-size='12'>\n",
    );
    let _ = writeln!(svg, "<rect width='960' height='460' fill='white'/>");
    legend(&mut svg, &growth.by_exponent);
    Panel { left: 70.0, title: format!("Growth with k (D {DEPTH})"), letter: "k", lines: &growth.by_exponent }
        .draw(&mut svg);
    Panel { left: 550.0, title: format!("Growth with D (k {EXPONENT})"), letter: "D", lines: &growth.by_depth }
        .draw(&mut svg);
    let _ = writeln!(svg, "<text x='70' y='448' fill='#555'>{run}</text>");
    svg.push_str("</svg>\n");
    svg
}
