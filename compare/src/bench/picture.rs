//! The picture of the growth: small panels with a line for each side, both axes logarithmic.
use std::fmt::Write;

/// What a panel shows: for each size the time of the Rust and of the library, in ns.
pub struct Panel {
    pub title: String,
    pub what: String,
    pub sizes: &'static [usize],
    pub lines: [Vec<Option<f64>>; 2],
}

const WIDTH: f64 = 400.;
const HEIGHT: f64 = 280.;
const LEFT: f64 = 70.;
const RIGHT: f64 = 20.;
const TOP: f64 = 40.;
const BOTTOM: f64 = 50.;
const LEGEND: f64 = 40.;
/// A side's name, its colour and its dashes.
const SIDES: [(&str, &str, &str); 2] = [("Rust", "#b5541c", "6 3"), ("library", "#1c5fb5", "none")];

/// Where a panel's values stand.
struct Axes {
    x: f64,
    y: f64,
    sizes: [f64; 2],
    decades: [f64; 2],
}

/// The place of a size on its axis; 0 has a place of its own, before the first.
fn place(size: usize, sizes: &[usize]) -> f64 {
    match size {
        0 => (sizes[1] as f64).log10() - ((sizes[2] / sizes[1]) as f64).log10(),
        size => (size as f64).log10(),
    }
}

impl Axes {
    fn new(panel: &Panel, x: f64, y: f64) -> Self {
        let at = |k: usize| place(panel.sizes[k], panel.sizes);
        let times = panel.lines.iter().flatten().flatten();
        let (low, high) = times.fold((f64::INFINITY, 0_f64), |(l, h), t| (l.min(*t), h.max(*t)));
        let decades = [low.max(1e-3).log10().floor(), high.max(1e-2).log10().ceil()];
        Self {
            x,
            y,
            sizes: [at(0), at(panel.sizes.len() - 1)],
            decades,
        }
    }
    fn across(&self, place: f64) -> f64 {
        let part = (place - self.sizes[0]) / (self.sizes[1] - self.sizes[0]);
        self.x + LEFT + part * (WIDTH - LEFT - RIGHT)
    }
    fn up(&self, decade: f64) -> f64 {
        let part = (decade - self.decades[0]) / (self.decades[1] - self.decades[0]);
        self.y + HEIGHT - BOTTOM - part * (HEIGHT - TOP - BOTTOM)
    }
}

fn text(svg: &mut String, x: f64, y: f64, anchor: &str, size: usize, text: &str) {
    writeln!(
        svg,
        "<text x=\"{x:.1}\" y=\"{y:.1}\" text-anchor=\"{anchor}\" font-size=\"{size}\">{text}</text>"
    )
    .unwrap();
}

fn line(svg: &mut String, from: [f64; 2], to: [f64; 2], color: &str) {
    let ([x1, y1], [x2, y2]) = (from, to);
    writeln!(
        svg,
        "<line x1=\"{x1:.1}\" y1=\"{y1:.1}\" x2=\"{x2:.1}\" y2=\"{y2:.1}\" stroke=\"{color}\"/>"
    )
    .unwrap();
}

/// 1 ns, 10 ns, 100 ns, 1 µs and so on.
fn decade(power: f64) -> String {
    let power = power as i32;
    let (unit, over) = match power {
        ..3 => ("ns", 0),
        3..6 => ("µs", 3),
        _ => ("ms", 6),
    };
    format!("{} {unit}", 10_f64.powi(power - over))
}

fn draw(svg: &mut String, panel: &Panel, x: f64, y: f64) {
    let axes = Axes::new(panel, x, y);
    let [left, right] = [x + LEFT, x + WIDTH - RIGHT];
    let [top, bottom] = [y + TOP, y + HEIGHT - BOTTOM];
    text(
        svg,
        (left + right) / 2.,
        y + 22.,
        "middle",
        13,
        &panel.title,
    );
    let mut power = axes.decades[0];
    while power <= axes.decades[1] {
        let at = axes.up(power);
        line(svg, [left, at], [right, at], "#dddddd");
        text(svg, left - 8., at + 4., "end", 11, &decade(power));
        power += 1.;
    }
    for size in panel.sizes {
        let at = axes.across(place(*size, panel.sizes));
        line(svg, [at, top], [at, bottom], "#dddddd");
        text(svg, at, bottom + 16., "middle", 11, &size.to_string());
    }
    text(
        svg,
        (left + right) / 2.,
        bottom + 36.,
        "middle",
        12,
        &panel.what,
    );
    for (times, (_, color, dashes)) in panel.lines.iter().zip(SIDES) {
        let points: Vec<[f64; 2]> = (panel.sizes.iter().zip(times))
            .filter_map(|(size, time)| {
                let across = axes.across(place(*size, panel.sizes));
                Some([across, axes.up((*time)?.log10())])
            })
            .collect();
        let list: Vec<String> = points
            .iter()
            .map(|[x, y]| format!("{x:.1},{y:.1}"))
            .collect();
        writeln!(
            svg,
            "<polyline points=\"{}\" fill=\"none\" stroke=\"{color}\" stroke-width=\"2\" stroke-dasharray=\"{dashes}\"/>",
            list.join(" ")
        )
        .unwrap();
        for [x, y] in points {
            writeln!(
                svg,
                "<circle cx=\"{x:.1}\" cy=\"{y:.1}\" r=\"3.5\" fill=\"{color}\"/>"
            )
            .unwrap();
        }
    }
}

/// All panels, two in a row, under a legend.
pub fn picture(panels: &[Panel]) -> String {
    let rows = panels.len().div_ceil(2) as f64;
    let (width, height) = (2. * WIDTH, LEGEND + rows * HEIGHT);
    let mut svg = format!(
        "<svg xmlns=\"http://www.w3.org/2000/svg\" width=\"{width}\" height=\"{height}\" \
         viewBox=\"0 0 {width} {height}\" font-family=\"sans-serif\" fill=\"#222222\">\n\
         <rect width=\"{width}\" height=\"{height}\" fill=\"#ffffff\"/>\n"
    );
    text(
        &mut svg,
        20.,
        26.,
        "start",
        14,
        "Time of a call, both axes logarithmic",
    );
    for (k, (name, color, dashes)) in SIDES.iter().enumerate() {
        let x = width - 220. + 100. * k as f64;
        writeln!(
            svg,
            "<line x1=\"{x}\" y1=\"21\" x2=\"{}\" y2=\"21\" stroke=\"{color}\" stroke-width=\"2\" stroke-dasharray=\"{dashes}\"/>",
            x + 24.
        )
        .unwrap();
        text(&mut svg, x + 30., 26., "start", 13, name);
    }
    for (k, panel) in panels.iter().enumerate() {
        let (column, row) = ((k % 2) as f64, (k / 2) as f64);
        draw(&mut svg, panel, column * WIDTH, LEGEND + row * HEIGHT);
    }
    svg + "</svg>\n"
}
