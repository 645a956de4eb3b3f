//! Time against size, as an SVG of two panels: each conversion from 400 bytes to a
//! full card, by the library and by the baseline.

use crate::measure::alternating;
use crate::times::{self, grouped, json_of, Workload};
use crate::workloads;
use std::fmt::Write;

/// Bytes, and microseconds of the baseline and of the library.
type Point = (f64, [f64; 2]);

struct Panel {
    title: &'static str,
    unit: &'static str,
    points: Vec<Point>,
}

pub fn write(file: &str) -> std::io::Result<()> {
    let panels = [
        measured("Card to JSON", "bytes of the card", &workloads::growing(), times::card_to_json),
        measured("JSON to card", "bytes of the JSON", &texts(), times::json_to_card),
    ];
    for panel in &panels {
        for (bytes, [base, ours]) in &panel.points {
            println!("{}, {bytes} bytes: base {base:.1} us, ours {ours:.1} us", panel.title);
        }
    }
    std::fs::write(file, drawn(&panels))
}

fn texts() -> Vec<Vec<u8>> {
    workloads::growing_home().iter().map(|card| json_of(card)).collect()
}

fn measured(title: &'static str, unit: &'static str, inputs: &[Vec<u8>], work: for<'a> fn(&'static str, &'a [u8]) -> Workload<'a>) -> Panel {
    let point = |input: &Vec<u8>| {
        let times = alternating(&mut work(title, input).sides[..2], 1.0);
        (input.len() as f64, [times[0], times[1]])
    };
    Panel { title, unit, points: inputs.iter().map(point).collect() }
}

/// The inside of a panel, and what is left of it for the labels.
const WIDTH: f64 = 350.0;
const HEIGHT: f64 = 260.0;
const LEFT: f64 = 70.0;
const TOP: f64 = 46.0;
const NEXT: f64 = 480.0;

const NAMES: [(&str, &str); 2] = [("baseline", "#888888"), ("Thymebarrel", "#1f5fa8")];

const HEAD: &str = r##"<svg xmlns="http://www.w3.org/2000/svg" viewBox="0 0 960 400" font-family="sans-serif" font-size="12" fill="#222222">
<rect width="960" height="400" fill="#ffffff"/>
"##;

fn drawn(panels: &[Panel]) -> String {
    let mut svg = HEAD.to_string();
    for (index, panel) in panels.iter().enumerate() {
        let left = LEFT + NEXT * index as f64;
        draw(&mut svg, left, panel).expect("a string takes all that is written");
    }
    let note = "dashed: the straight line from 0 to the largest input";
    let _ = writeln!(svg, r#"<text x="480" y="390" text-anchor="middle" font-size="11">{note}</text>"#);
    svg + "</svg>\n"
}

fn draw(svg: &mut String, left: f64, panel: &Panel) -> std::fmt::Result {
    let most = |of: fn(&Point) -> f64| panel.points.iter().map(of).fold(0.0, f64::max);
    let x = Axis::to(most(|point| point.0), 5.0);
    // a little more than the greatest time, so that the names have room
    let y = Axis::to(most(|point| point.1[0].max(point.1[1])) * 1.08, 8.0);
    let bottom = TOP + HEIGHT;
    writeln!(svg, r#"<text x="{}" y="{}" text-anchor="middle" font-size="15">{}</text>"#, left + WIDTH / 2.0, TOP - 18.0, panel.title)?;
    for step in 0..=x.steps {
        let at = left + WIDTH * x.share(step);
        writeln!(svg, r##"<path d="M{at:.1} {TOP}V{bottom}" stroke="#e4e4e4"/>"##)?;
        writeln!(svg, r#"<text x="{at:.1}" y="{}" text-anchor="middle">{}</text>"#, bottom + 18.0, x.label(step))?;
    }
    for step in 0..=y.steps {
        let at = bottom - HEIGHT * y.share(step);
        writeln!(svg, r##"<path d="M{left} {at:.1}H{}" stroke="#e4e4e4"/>"##, left + WIDTH)?;
        writeln!(svg, r#"<text x="{}" y="{:.1}" text-anchor="end">{}</text>"#, left - 7.0, at + 4.0, y.label(step))?;
    }
    writeln!(svg, r##"<path d="M{left} {TOP}V{bottom}H{}" stroke="#222222" fill="none"/>"##, left + WIDTH)?;
    writeln!(svg, r#"<text x="{}" y="{}" text-anchor="middle">{}</text>"#, left + WIDTH / 2.0, bottom + 40.0, panel.unit)?;
    let (across, middle) = (left - 52.0, TOP + HEIGHT / 2.0);
    writeln!(svg, r#"<text transform="translate({across} {middle}) rotate(-90)" text-anchor="middle">microseconds a call</text>"#)?;
    for side in 0..2 {
        let place = |(bytes, times): &Point| (left + WIDTH * bytes / x.end(), bottom - HEIGHT * times[side] / y.end());
        line(svg, side, (left, bottom), panel.points.iter().map(place).collect())?;
    }
    Ok(())
}

/// A side's points, joined, with its name at the last one.
fn line(svg: &mut String, side: usize, (left, bottom): (f64, f64), places: Vec<(f64, f64)>) -> std::fmt::Result {
    let (name, color) = NAMES[side];
    let Some(&(x, y)) = places.last() else {
        return Ok(());
    };
    writeln!(svg, r#"<path d="M{left} {bottom}L{x:.1} {y:.1}" stroke="{color}" stroke-dasharray="3 4" fill="none"/>"#)?;
    let joined: Vec<String> = places.iter().map(|(x, y)| format!("{x:.1},{y:.1}")).collect();
    writeln!(svg, r#"<polyline points="{}" stroke="{color}" stroke-width="1.6" fill="none"/>"#, joined.join(" "))?;
    for (x, y) in &places {
        writeln!(svg, r#"<circle cx="{x:.1}" cy="{y:.1}" r="3" fill="{color}"/>"#)?;
    }
    writeln!(svg, r#"<text x="{:.1}" y="{:.1}" text-anchor="end" fill="{color}">{name}</text>"#, x - 12.0, y - 4.0)
}

/// An axis from 0 by round steps.
struct Axis {
    step: f64,
    steps: usize,
}

impl Axis {
    /// Steps that reach that number, about so many at the most.
    fn to(most: f64, steps: f64) -> Axis {
        let tens = 10f64.powf((most / steps).log10().floor());
        let step = [1.0, 2.0, 5.0, 10.0].map(|factor| factor * tens).into_iter().find(|step| most / step <= steps);
        let step = step.unwrap_or(most.max(1.0));
        Axis { step, steps: (most / step).ceil() as usize }
    }

    fn end(&self) -> f64 {
        self.step * self.steps as f64
    }

    fn share(&self, step: usize) -> f64 {
        step as f64 / self.steps as f64
    }

    fn label(&self, step: usize) -> String {
        grouped((self.step * step as f64).round() as usize)
    }
}
