//! Times over numbers of offers, or of those reported, both axes logarithmic, as an SVG.
use std::fmt::Write;

pub struct Line<'a> {
    pub name: &'a str,
    pub colour: &'a str,
    /// offers, nanoseconds
    pub points: Vec<(f64, f64)>,
}

/// The axis below: what it counts, and the numbers that stand there, from its left end to its right.
#[derive(Clone, Copy)]
pub struct Axis<'a> {
    pub name: &'a str,
    pub ticks: &'a [f64],
}

pub struct Panel<'a> {
    pub title: &'a str,
    pub axis: Axis<'a>,
    pub lines: Vec<Line<'a>>,
}

const WIDTH: f64 = 460.0;
const HEIGHT: f64 = 360.0;
const LEFT: f64 = 60.0;
const TOP: f64 = 40.0;
const PLOT: (f64, f64) = (370.0, 260.0);

/// 1 ns, 10 ns and so on: the least power of ten at or below, and at or above, all times
fn decades(panel: &Panel) -> (i32, i32) {
    let times = || panel.lines.iter().flat_map(|l| l.points.iter().map(|p| p.1.log10()));
    let low = times().fold(f64::MAX, f64::min).floor() as i32;
    let high = times().fold(f64::MIN, f64::max).ceil() as i32;
    (low, high.max(low + 1))
}

fn in_units(power: i32) -> String {
    let names = ["ns", "µs", "ms", "s"];
    let at = (power / 3).clamp(0, 3);
    format!("{} {}", 10f64.powi(power - 3 * at), names[at as usize])
}

fn panel(svg: &mut String, panel: &Panel, left: f64) {
    let (low, high) = decades(panel);
    let ticks = panel.axis.ticks;
    let (first, last) = (ticks[0].log2(), ticks[ticks.len() - 1].log2());
    let x = |n: f64| left + LEFT + (n.log2() - first) / (last - first) * PLOT.0;
    let y = |t: f64| TOP + PLOT.1 - (t.log10() - low as f64) / (high - low) as f64 * PLOT.1;
    writeln!(svg, "<text x=\"{}\" y=\"24\" font-weight=\"bold\">{}</text>", left + LEFT, panel.title).unwrap();
    for power in low..=high {
        let at = y(10f64.powi(power));
        writeln!(svg, "<path d=\"M{} {at:.1} h{}\" stroke=\"#ddd\"/>", left + LEFT, PLOT.0).unwrap();
        writeln!(svg, "<text x=\"{}\" y=\"{:.1}\" text-anchor=\"end\">{}</text>", left + LEFT - 6.0, at + 4.0, in_units(power))
            .unwrap();
    }
    for n in ticks {
        writeln!(svg, "<text x=\"{:.1}\" y=\"{}\" text-anchor=\"middle\">{n}</text>", x(*n), TOP + PLOT.1 + 18.0).unwrap();
    }
    writeln!(
        svg,
        "<text x=\"{:.1}\" y=\"{}\" text-anchor=\"middle\">{}</text>",
        left + LEFT + PLOT.0 / 2.0,
        TOP + PLOT.1 + 36.0,
        panel.axis.name
    )
    .unwrap();
    for (i, line) in panel.lines.iter().enumerate() {
        let points: Vec<String> = line.points.iter().map(|p| format!("{:.1},{:.1}", x(p.0), y(p.1))).collect();
        writeln!(svg, "<polyline points=\"{}\" fill=\"none\" stroke=\"{}\" stroke-width=\"2\"/>", points.join(" "), line.colour)
            .unwrap();
        let at = TOP + 14.0 + 16.0 * i as f64;
        writeln!(svg, "<text x=\"{}\" y=\"{at}\" fill=\"{}\">{}</text>", left + LEFT + 10.0, line.colour, line.name).unwrap();
    }
}

pub fn draw(panels: &[Panel]) -> String {
    let width = WIDTH * panels.len() as f64;
    let mut svg = format!("<svg xmlns=\"http://www.w3.org/2000/svg\" viewBox=\"0 0 {width} {HEIGHT}\" font-family=\"sans-serif\" font-size=\"12\">\n");
    svg.push_str("<rect width=\"100%\" height=\"100%\" fill=\"white\"/>\n");
    for (i, p) in panels.iter().enumerate() {
        panel(&mut svg, p, WIDTH * i as f64);
    }
    svg.push_str("</svg>\n");
    svg
}
