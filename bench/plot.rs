// A plot of the time of a lookup over the number of records, as SVG.
use crate::growth::Point;
use std::fmt::Write;

const LEFT: f64 = 60.0;
const TOP: f64 = 40.0;
const WIDTH: f64 = 560.0;
const HEIGHT: f64 = 300.0;

// Lines across, and what a name below the plot takes.
const STEPS: usize = 5;
const NAME: f64 = 140.0;

struct Line<'a> {
    name: &'a str,
    colour: &'a str,
    dashes: &'a str,
    // Records and nanoseconds.
    points: Vec<(usize, f64)>,
}

fn lines<'a>(packed: &[Point], words: &[Point]) -> Vec<Line<'a>> {
    let line = |name, colour, dashes, points: &[Point], side: usize| Line {
        name,
        colour,
        dashes,
        points: (points.iter().map(|point| (point.records, point.get[side]))).collect(),
    };
    vec![
        line("Rust, packed", "#b5541c", "none", packed, 0),
        line("port, packed", "#1c5fb5", "none", packed, 1),
        line("Rust, words", "#b5541c", "5 4", words, 0),
        line("port, words", "#1c5fb5", "5 4", words, 1),
    ]
}

// The highest label: the next of 1, 2 or 5 times a power of ten for each step.
fn highest(lines: &[Line<'_>]) -> f64 {
    let all = lines.iter().flat_map(|line| &line.points);
    let most = all.fold(1.0, |most: f64, point| most.max(point.1)) / STEPS as f64;
    let power = 10_f64.powf(most.log10().floor());
    let step = [1.0, 2.0, 5.0, 10.0].map(|times| times * power);
    let step = step.into_iter().find(|step| *step >= most);
    step.expect("ten times the power is above") * STEPS as f64
}

fn across(records: usize, powers: (u32, u32)) -> f64 {
    let (first, last) = (f64::from(powers.0), f64::from(powers.1));
    LEFT + WIDTH * ((records as f64).log2() - first) / (last - first).max(1.0)
}

fn up(nanos: f64, highest: f64) -> f64 {
    TOP + HEIGHT * (1.0 - nanos / highest)
}

fn axes(svg: &mut String, powers: (u32, u32), highest: f64) -> std::fmt::Result {
    let (bottom, right) = (TOP + HEIGHT, LEFT + WIDTH);
    for step in 0..=STEPS {
        let nanos = highest * step as f64 / STEPS as f64;
        let (y, x) = (up(nanos, highest), LEFT - 8.0);
        writeln!(svg, r##"<path d="M{LEFT} {y:.1}H{right}" stroke="#ddd"/>"##)?;
        let at = format!(r#"x="{x}" y="{:.1}" text-anchor="end""#, y + 4.0);
        writeln!(svg, "<text {at}>{nanos:.0}</text>")?;
    }
    for power in powers.0..=powers.1 {
        let (x, y) = (across(1 << power, powers), bottom + 18.0);
        let at = format!(r#"x="{x:.1}" y="{y}" text-anchor="middle""#);
        let raised = r#"<tspan dy="-5" font-size="9">"#;
        writeln!(svg, "<text {at}>2{raised}{power}</tspan></text>")?;
    }
    writeln!(
        svg,
        r##"<path d="M{LEFT} {TOP}V{bottom}H{right}" fill="none" stroke="#333"/>"##
    )?;
    let (x, y) = (LEFT + WIDTH / 2.0, bottom + 40.0);
    writeln!(
        svg,
        r#"<text x="{x}" y="{y}" text-anchor="middle">records</text>"#
    )?;
    writeln!(
        svg,
        r#"<text x="{LEFT}" y="{}">ns per lookup</text>"#,
        TOP - 14.0
    )
}

fn curve(svg: &mut String, line: &Line<'_>, powers: (u32, u32), highest: f64) -> std::fmt::Result {
    let (colour, dashes) = (line.colour, line.dashes);
    let mut points = String::new();
    for (records, nanos) in &line.points {
        let (x, y) = (across(*records, powers), up(*nanos, highest));
        write!(points, "{x:.1},{y:.1} ")?;
    }
    let style =
        format!(r#"fill="none" stroke="{colour}" stroke-width="2" stroke-dasharray="{dashes}""#);
    writeln!(svg, r#"<polyline points="{}" {style}/>"#, points.trim_end())
}

fn legend(svg: &mut String, lines: &[Line<'_>]) -> std::fmt::Result {
    let y = TOP + HEIGHT + 64.0;
    for (
        i,
        Line {
            name,
            colour,
            dashes,
            ..
        },
    ) in lines.iter().enumerate()
    {
        let x = LEFT + NAME * i as f64;
        let style = format!(r#"stroke="{colour}" stroke-width="2" stroke-dasharray="{dashes}""#);
        writeln!(svg, r#"<path d="M{x} {}h28" {style}/>"#, y - 4.0)?;
        writeln!(svg, r#"<text x="{}" y="{y}">{name}</text>"#, x + 34.0)?;
    }
    Ok(())
}

// The plot's text; there is at least one point.
pub fn svg(packed: &[Point], words: &[Point]) -> Result<String, std::fmt::Error> {
    let lines = lines(packed, words);
    let power = |point: Option<&Point>| point.map_or(0, |point| point.records.ilog2());
    let (powers, highest) = (
        (power(packed.first()), power(packed.last())),
        highest(&lines),
    );
    let (width, height) = (LEFT + WIDTH + 20.0, TOP + HEIGHT + 80.0);
    let mut svg = String::new();
    let size = format!(r#"width="{width}" height="{height}" viewBox="0 0 {width} {height}""#);
    let font = r#"font-family="sans-serif" font-size="12""#;
    writeln!(
        svg,
        r#"<svg xmlns="http://www.w3.org/2000/svg" {size} {font}>"#
    )?;
    writeln!(
        svg,
        "<title>A lookup that finds its record, by the number of records</title>"
    )?;
    writeln!(svg, r#"<rect width="100%" height="100%" fill="white"/>"#)?;
    axes(&mut svg, powers, highest)?;
    for line in &lines {
        curve(&mut svg, line, powers, highest)?;
    }
    legend(&mut svg, &lines)?;
    writeln!(svg, "</svg>")?;
    Ok(svg)
}
