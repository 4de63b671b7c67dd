//! A plot with two logarithmic axes, as SVG.

use std::fmt::Write;

pub struct Series {
    pub name: String,
    pub colour: &'static str,
    pub dashed: bool,
    pub points: Vec<(f64, f64)>,
}

pub struct Plot {
    pub title: &'static str,
    pub across: &'static str,
    pub up: &'static str,
    pub series: Vec<Series>,
}

const WIDTH: f64 = 860.0;
const HEIGHT: f64 = 480.0;
const LEFT: f64 = 90.0;
const RIGHT: f64 = 250.0;
const TOP: f64 = 50.0;
const BOTTOM: f64 = 60.0;

/// The logarithms of the least and the largest value, with a margin.
struct Axis {
    least: f64,
    most: f64,
}

const MARGIN: f64 = 0.15;

impl Axis {
    fn of(values: impl Iterator<Item = f64> + Clone) -> Axis {
        let least = values.clone().fold(f64::INFINITY, f64::min).log10();
        let most = values.fold(0.0, f64::max).log10();
        Axis { least: least - MARGIN, most: most + MARGIN }
    }

    /// From 0 to 1.
    fn place(&self, value: f64) -> f64 {
        (value.log10() - self.least) / (self.most - self.least)
    }

    /// The powers of ten on the axis.
    fn powers(&self) -> std::ops::RangeInclusive<i32> {
        self.least.ceil() as i32..=self.most.floor() as i32
    }
}

impl Plot {
    pub fn svg(&self) -> String {
        let points = || self.series.iter().flat_map(|series| &series.points);
        let (across, up) = (Axis::of(points().map(|p| p.0)), Axis::of(points().map(|p| p.1)));
        let x = |value: f64| LEFT + across.place(value) * (WIDTH - LEFT - RIGHT);
        let y = |value: f64| HEIGHT - BOTTOM - up.place(value) * (HEIGHT - TOP - BOTTOM);
        let (right, bottom) = (WIDTH - RIGHT, HEIGHT - BOTTOM);
        let mut svg = format!(
            "<svg xmlns=\"http://www.w3.org/2000/svg\" viewBox=\"0 0 {WIDTH} {HEIGHT}\" width=\"{WIDTH}\" height=\"{HEIGHT}\" \
             font-family=\"sans-serif\" font-size=\"13\">\n<rect width=\"100%\" height=\"100%\" fill=\"white\"/>\n"
        );
        text(&mut svg, LEFT, 28.0, "start", &format!("<tspan font-size=\"16\">{}</tspan>", self.title));
        for power in across.powers() {
            let at = x(10f64.powi(power));
            line(&mut svg, (at, TOP), (at, bottom), "#dddddd");
            text(&mut svg, at, bottom + 20.0, "middle", &count(power));
        }
        for power in up.powers() {
            let at = y(10f64.powi(power));
            line(&mut svg, (LEFT, at), (right, at), "#dddddd");
            text(&mut svg, LEFT - 8.0, at + 4.0, "end", &time(power));
        }
        line(&mut svg, (LEFT, TOP), (LEFT, bottom), "black");
        line(&mut svg, (LEFT, bottom), (right, bottom), "black");
        text(&mut svg, (LEFT + right) / 2.0, HEIGHT - 16.0, "middle", self.across);
        text(&mut svg, LEFT - 60.0, TOP - 8.0, "start", self.up);
        for (index, series) in self.series.iter().enumerate() {
            let places: Vec<(f64, f64)> = series.points.iter().map(|&(a, b)| (x(a), y(b))).collect();
            curve(&mut svg, series, &places);
            let height = TOP + 10.0 + 22.0 * index as f64;
            curve(&mut svg, series, &[(right + 20.0, height), (right + 55.0, height)]);
            text(&mut svg, right + 64.0, height + 4.0, "start", &series.name);
        }
        svg + "</svg>\n"
    }
}

fn line(svg: &mut String, from: (f64, f64), to: (f64, f64), colour: &str) {
    let _ = writeln!(svg, "<line x1=\"{:.1}\" y1=\"{:.1}\" x2=\"{:.1}\" y2=\"{:.1}\" stroke=\"{colour}\"/>", from.0, from.1, to.0, to.1);
}

fn text(svg: &mut String, x: f64, y: f64, anchor: &str, words: &str) {
    let _ = writeln!(svg, "<text x=\"{x:.1}\" y=\"{y:.1}\" text-anchor=\"{anchor}\">{words}</text>");
}

fn curve(svg: &mut String, series: &Series, places: &[(f64, f64)]) {
    let path: Vec<String> = places.iter().map(|(x, y)| format!("{x:.1},{y:.1}")).collect();
    let dashes = if series.dashed { " stroke-dasharray=\"6 4\"" } else { "" };
    let colour = series.colour;
    let _ = writeln!(svg, "<polyline points=\"{}\" fill=\"none\" stroke=\"{colour}\" stroke-width=\"2\"{dashes}/>", path.join(" "));
    for (x, y) in places {
        let fill = if series.dashed { "white" } else { colour };
        let _ = writeln!(svg, "<circle cx=\"{x:.1}\" cy=\"{y:.1}\" r=\"3\" fill=\"{fill}\" stroke=\"{colour}\"/>");
    }
}

fn count(power: i32) -> String {
    match power {
        0..=2 => 10u32.pow(power as u32).to_string(),
        3..=5 => format!("{},000", 10u32.pow(power as u32 - 3)),
        6 | 7 => format!("{},000,000", 10u32.pow(power as u32 - 6)),
        _ => format!("1e{power}"),
    }
}

fn time(power: i32) -> String {
    let (unit, of) = match power {
        ..=-7 => ("ns", -9),
        -6..=-4 => ("us", -6),
        -3..=-1 => ("ms", -3),
        0.. => ("s", 0),
    };
    if power < of {
        return format!("1e{power} s");
    }
    format!("{} {unit}", 10u32.pow((power - of) as u32))
}
