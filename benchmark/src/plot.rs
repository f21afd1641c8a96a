//! A plot of times, as SVG.

use std::fmt::Write;

/// A line of the plot: its name, its colour, its dashes as SVG has them, and the milliseconds at each m.
pub struct Line {
    pub name: &'static str,
    pub colour: &'static str,
    pub dashes: &'static str,
    pub points: Vec<(f64, f64)>,
}

const WIDTH: f64 = 720.0;
const HEIGHT: f64 = 420.0;
const LEFT: f64 = 80.0;
const RIGHT: f64 = 150.0;
const TOP: f64 = 40.0;
const BOTTOM: f64 = 50.0;

/// The axis across runs from 0 to `most`, the one up over powers of ten.
struct Scale {
    most: f64,
    low: i32,
    high: i32,
}

impl Scale {
    fn of(lines: &[Line]) -> Scale {
        let points = || lines.iter().flat_map(|line| &line.points);
        let least = points().fold(f64::MAX, |least, &(_, y)| least.min(y));
        let largest = points().fold(0.0, |largest: f64, &(_, y)| largest.max(y));
        Scale {
            most: points().fold(0.0, |most: f64, &(x, _)| most.max(x)),
            low: least.log10().floor() as i32,
            high: largest.log10().ceil() as i32,
        }
    }

    fn across(&self, x: f64) -> f64 {
        LEFT + (WIDTH - LEFT - RIGHT) * x / self.most
    }

    fn up(&self, y: f64) -> f64 {
        let part = (y.log10() - f64::from(self.low)) / f64::from(self.high - self.low);
        HEIGHT - BOTTOM - (HEIGHT - TOP - BOTTOM) * part
    }
}

fn text(svg: &mut String, x: f64, y: f64, anchor: &str, words: &str) {
    writeln!(
        svg,
        r#"<text x="{x:.1}" y="{y:.1}" text-anchor="{anchor}">{words}</text>"#
    )
    .unwrap();
}

fn rule(svg: &mut String, from: (f64, f64), to: (f64, f64)) {
    writeln!(
        svg,
        r##"<line x1="{:.1}" y1="{:.1}" x2="{:.1}" y2="{:.1}" stroke="#ccc"/>"##,
        from.0, from.1, to.0, to.1
    )
    .unwrap();
}

/// The lines over m, with the milliseconds on a scale of powers of ten. The names stand at the right.
pub fn svg(title: &str, lines: &[Line]) -> String {
    let scale = Scale::of(lines);
    let mut svg = format!(
        r##"<svg xmlns="http://www.w3.org/2000/svg" viewBox="0 0 {WIDTH} {HEIGHT}" font-family="sans-serif" font-size="13">
<rect width="{WIDTH}" height="{HEIGHT}" fill="#fff"/>
"##
    );
    text(&mut svg, LEFT, 22.0, "start", title);
    for power in scale.low..=scale.high {
        let y = scale.up(10f64.powi(power));
        rule(&mut svg, (LEFT, y), (WIDTH - RIGHT, y));
        let label = format!("{} ms", 10f64.powi(power));
        text(&mut svg, LEFT - 8.0, y + 4.0, "end", &label);
    }
    for &(x, _) in &lines[0].points {
        let label = format!("{x}");
        text(&mut svg, scale.across(x), HEIGHT - 28.0, "middle", &label);
    }
    let middle = (LEFT + WIDTH - RIGHT) / 2.0;
    let across = "m, letters of the generators";
    text(&mut svg, middle, HEIGHT - 8.0, "middle", across);
    for (number, line) in lines.iter().enumerate() {
        let points: Vec<_> = line
            .points
            .iter()
            .map(|&(x, y)| format!("{:.1},{:.1}", scale.across(x), scale.up(y)))
            .collect();
        writeln!(
            svg,
            r#"<polyline points="{}" fill="none" stroke="{}" stroke-width="2" stroke-dasharray="{}"/>"#,
            points.join(" "),
            line.colour,
            line.dashes
        )
        .unwrap();
        let y = TOP + 24.0 * number as f64 + 16.0;
        let key = format!(r#"<tspan fill="{}">— </tspan>{}"#, line.colour, line.name);
        text(&mut svg, WIDTH - RIGHT + 12.0, y, "start", &key);
    }
    svg + "</svg>\n"
}
