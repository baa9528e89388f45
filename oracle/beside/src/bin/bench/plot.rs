//! The growth with stages and with text, as a plot in SVG.

use std::fmt::Write;

use crate::measure::Row;

const WIDTH: f64 = 960.0;
const HEIGHT: f64 = 400.0;
/// A panel's axes, from its own corner.
const LEFT: f64 = 64.0;
const TOP: f64 = 48.0;
const ACROSS: f64 = 390.0;
const DOWN: f64 = 290.0;

/// A name, a colour, and the points.
struct Line {
    name: &'static str,
    colour: &'static str,
    points: Vec<(f64, f64)>,
}

#[must_use]
pub fn svg(rows: &[Row]) -> String {
    let mut out = format!(
        "<svg xmlns=\"http://www.w3.org/2000/svg\" width=\"{WIDTH}\" height=\"{HEIGHT}\" viewBox=\"0 0 {WIDTH} {HEIGHT}\" font-family=\"sans-serif\" font-size=\"12\">\n<rect width=\"{WIDTH}\" height=\"{HEIGHT}\" fill=\"white\"/>\n"
    );
    let stages = lines(rows, "stages", |row| row.name.parse().expect("a number"));
    let text = lines(rows, "text", |row| row.bytes);
    panel(
        &mut out,
        0.0,
        "by active stages, each with a lookup",
        &stages,
    );
    panel(&mut out, WIDTH / 2.0, "by bytes of text", &text);
    out.push_str("</svg>\n");
    out
}

/// The Rust, ours and the copy, of a group's rows.
fn lines(rows: &[Row], group: &str, x: impl Fn(&Row) -> f64) -> Vec<Line> {
    let rows: Vec<&Row> = rows.iter().filter(|row| row.group == group).collect();
    let line = |name, colour, y: &dyn Fn(&Row) -> Option<f64>| Line {
        name,
        colour,
        points: rows
            .iter()
            .filter_map(|row| Some((x(row), y(row)?)))
            .collect(),
    };
    vec![
        line("Rust", "#b45f06", &|row| row.rust.map(|t| t.median)),
        line("ours", "#1c4587", &|row| Some(row.ours.median)),
        line("plain copy", "#6a6a6a", &|row| Some(row.copy.median)),
    ]
}

/// The largest of 1, 2 and 5 times a power of ten that gives at least four steps up to `most`.
fn step(most: f64) -> f64 {
    let power = 10_f64.powf((most / 4.0).log10().floor());
    let steps = [5.0, 2.0, 1.0].map(|n| n * power);
    steps.into_iter().find(|s| most / s >= 4.0).unwrap_or(power)
}

fn panel(out: &mut String, from: f64, title: &str, lines: &[Line]) {
    let points = || lines.iter().flat_map(|line| &line.points);
    let most = |of: fn(&(f64, f64)) -> f64| points().map(of).fold(1.0, f64::max);
    let (most_x, most_y) = (most(|p| p.0), most(|p| p.1) * 1.05);
    let x = |value: f64| from + LEFT + value / most_x * ACROSS;
    let y = |value: f64| TOP + DOWN - value / most_y * DOWN;
    let mut text = |at: (f64, f64), anchor: &str, colour: &str, what: &str| {
        writeln!(
            out,
            "<text x=\"{:.1}\" y=\"{:.1}\" text-anchor=\"{anchor}\" fill=\"{colour}\">{what}</text>",
            at.0, at.1
        )
        .expect("a string takes all");
    };
    text(
        (from + LEFT, TOP - 20.0),
        "start",
        "black",
        &format!("nanoseconds an emission, {title}"),
    );
    for (n, line) in lines.iter().enumerate() {
        let at = (from + LEFT + 12.0, TOP + 14.0 + 16.0 * n as f64);
        text(at, "start", line.colour, line.name);
    }
    for value in ticks(most_x) {
        text(
            (x(value), TOP + DOWN + 18.0),
            "middle",
            "black",
            &format!("{value}"),
        );
    }
    for value in ticks(most_y) {
        text(
            (from + LEFT - 6.0, y(value) + 4.0),
            "end",
            "black",
            &format!("{value}"),
        );
    }
    for value in ticks(most_y) {
        rule(out, (x(0.0), y(value)), (x(most_x), y(value)), "#dddddd");
    }
    rule(out, (x(0.0), y(0.0)), (x(most_x), y(0.0)), "black");
    rule(out, (x(0.0), y(0.0)), (x(0.0), TOP), "black");
    for line in lines {
        curve(out, line, &x, &y);
    }
}

fn ticks(most: f64) -> impl Iterator<Item = f64> {
    let step = step(most);
    (0..)
        .map(move |n| f64::from(n) * step)
        .take_while(move |v| *v <= most)
}

fn rule(out: &mut String, a: (f64, f64), b: (f64, f64), colour: &str) {
    writeln!(
        out,
        "<line x1=\"{:.1}\" y1=\"{:.1}\" x2=\"{:.1}\" y2=\"{:.1}\" stroke=\"{colour}\"/>",
        a.0, a.1, b.0, b.1
    )
    .expect("a string takes all");
}

fn curve(out: &mut String, line: &Line, x: &dyn Fn(f64) -> f64, y: &dyn Fn(f64) -> f64) {
    let places: Vec<(f64, f64)> = line.points.iter().map(|p| (x(p.0), y(p.1))).collect();
    let points: Vec<String> = places
        .iter()
        .map(|(x, y)| format!("{x:.1},{y:.1}"))
        .collect();
    writeln!(
        out,
        "<polyline points=\"{}\" fill=\"none\" stroke=\"{}\" stroke-width=\"2\"/>",
        points.join(" "),
        line.colour
    )
    .expect("a string takes all");
    for (x, y) in places {
        writeln!(
            out,
            "<circle cx=\"{x:.1}\" cy=\"{y:.1}\" r=\"3\" fill=\"{}\"/>",
            line.colour
        )
        .expect("a string takes all");
    }
}
