//! The picture as SVG: the farm on the left, the legend on the right. Labels look for free places, so that none covers a peg.

use super::{distance, edge_line, edge_words, peg_words, tile_words, Laid, Peg, Plan, BROOK, EDGES, SAMPLES};
use juplatsk::Point;
use std::collections::HashSet;
use std::f64::consts::TAU;

const PAPER: &str = "#fffdf8";
const INK: &str = "#2b2b26";
const TILE_COLOURS: [&str; 5] = ["#dcebc6", "#f7ecc4", "#e6dff3", "#f9dfd0", "#d8ebf1"];
const EDGE_COLOURS: [&str; 5] = ["#0b5cad", "#c2410c", "#7a1f8a", "#00735a", "#7a5c00"];

/// In pixels: letters, the title above the farm, the ruler below it, the legend to the right, and room around the farm for labels.
const LETTERS: f64 = 13.0;
const TITLE: f64 = 60.0;
const RULER: f64 = 40.0;
const LEGEND: f64 = 440.0;
const MARGIN: f64 = 60.0;

/// How the farm lies on the page: pixels a metre, the farm's north-west in metres, and in pixels the lower right of its part of the page
/// and half the width of a corner stone's mark.
struct Page {
    scale: f64,
    north_west: Point,
    end: Point,
    stone: f64,
}

impl Page {
    fn new(spacing: f64) -> Page {
        // pegs 40 pixels apart leave room for a row of letters between them; but a page must not grow without end
        let scale = (40.0 / spacing).clamp(2.5, 6.0);
        let points: Vec<Point> = (0..EDGES.len()).flat_map(edge_line).collect();
        let least = |axis: usize| points.iter().map(|p| p[axis]).fold(f64::INFINITY, f64::min);
        let most = |axis: usize| points.iter().map(|p| p[axis]).fold(f64::NEG_INFINITY, f64::max);
        let mut page = Page { scale, north_west: [least(0), most(1)], end: [0.0; 2], stone: (0.18 * spacing * scale).clamp(0.6, 5.0) };
        page.end = page.at([most(0), least(1)]).map(|x| x + MARGIN);
        page
    }

    /// North is up, while y on a page grows downwards.
    fn at(&self, [x, y]: Point) -> Point {
        [MARGIN + (x - self.north_west[0]) * self.scale, TITLE + MARGIN + (self.north_west[1] - y) * self.scale]
    }

    fn path(&self, points: &[Point]) -> String {
        points.iter().map(|&p| self.at(p)).map(|[x, y]| format!("{x:.1},{y:.1} ")).collect()
    }
}

// ---- labels

/// Words in a box, with a line to what they name; `half` is half the width and half the height of the box.
struct Label {
    words: String,
    colour: &'static str,
    named: Point,
    middle: Point,
    half: Point,
}

/// What labels must not hide, by squares of 3 by 3 pixels.
struct Taken(HashSet<[i64; 2]>);

impl Taken {
    fn square(p: Point) -> [i64; 2] {
        p.map(|x| (x / 3.0).floor() as i64)
    }

    fn squares([x, y]: Point, half: Point) -> impl Iterator<Item = [i64; 2]> {
        let [left, upper] = Taken::square([x - half[0], y - half[1]]);
        let [right, lower] = Taken::square([x + half[0], y + half[1]]);
        (upper..=lower).flat_map(move |row| (left..=right).map(move |column| [column, row]))
    }

    fn take_line(&mut self, p: Point, q: Point) {
        let steps = distance(p, q).ceil().max(1.0);
        let point = |share: f64| [p[0] + (q[0] - p[0]) * share, p[1] + (q[1] - p[1]) * share];
        self.0.extend((0..=steps as usize).map(|k| Taken::square(point(k as f64 / steps))));
    }

    /// The middle of the free place nearest to a point, ring by ring around it.
    fn nearest_free(&self, [x, y]: Point, half: Point, end: Point) -> Option<Point> {
        let rings = (0..(end[0] + end[1]) as u32).step_by(3).map(f64::from);
        let turns = (0..48).map(|k| TAU * f64::from(k) / 48.0);
        let mut places = rings.flat_map(|r| turns.clone().map(move |turn| [x + r * turn.sin(), y - r * turn.cos()]));
        let start = [0.0, TITLE];
        let on_page = |p: Point| (0..2).all(|axis| p[axis] - half[axis] > start[axis] && p[axis] + half[axis] < end[axis]);
        places.find(|&p| on_page(p) && Taken::squares(p, half).all(|square| !self.0.contains(&square)))
    }
}

/// What gets a label: the words, their colour, and the point that they name.
fn named(plan: &Plan, colours: &[&'static str]) -> Vec<(String, &'static str, Point)> {
    let tiles = plan.laid.iter().enumerate().map(|(tile, laid)| (format!("tile {tile}"), INK, middle_quad(laid)));
    let edges = plan.counts.iter().enumerate().map(|(edge, count)| {
        let brook = if edge == BROOK { ", brook" } else { "" };
        (format!("e{edge}: {count}{brook}"), colours[edge], edge_line(edge)[SAMPLES / 2])
    });
    tiles.chain(edges).collect()
}

/// The labels, each at the nearest place clear of pegs, edges and labels. One that finds none is left out; the legend has what it says.
fn labels(plan: &Plan, page: &Page, colours: &[&'static str]) -> Vec<Label> {
    let pegs: Vec<Point> = plan.pegs.values().map(|&peg| page.at(peg)).collect();
    let mut taken = Taken(pegs.iter().map(|&peg| Taken::square(peg)).collect());
    for edge in 0..EDGES.len() {
        edge_line(edge).windows(2).for_each(|pair| taken.take_line(page.at(pair[0]), page.at(pair[1])));
    }
    let mut labels = Vec::new();
    for (words, colour, point) in named(plan, colours) {
        let named = page.at(point);
        let half = [0.3 * LETTERS * words.len() as f64 + 2.0, 0.5 * LETTERS + 1.0];
        let clear = half.map(|x| x + page.stone + 1.0);
        if let Some(middle) = taken.nearest_free(named, clear, page.end) {
            let covers = |peg: &Point| (0..2).all(|axis| (peg[axis] - middle[axis]).abs() <= half[axis] + page.stone);
            assert!(!pegs.iter().any(covers), "the label {words} covers a peg");
            taken.0.extend(Taken::squares(middle, half));
            taken.take_line(named, middle);
            labels.push(Label { words, colour, named, middle, half });
        }
    }
    labels
}

fn middle_quad(laid: &Laid) -> Point {
    let [p, _, q, _] = laid.quads[laid.up / 2 * laid.across + laid.across / 2];
    [(p[0] + q[0]) / 2.0, (p[1] + q[1]) / 2.0]
}

impl Label {
    fn leader(&self) -> String {
        let ([x, y], [to_x, to_y]) = (self.middle, self.named);
        format!("<path d=\"M{x:.1} {y:.1}L{to_x:.1} {to_y:.1}\" stroke=\"{}\"/>\n", self.colour)
    }

    fn draw(&self) -> String {
        let ([x, y], [w, h], colour) = (self.middle, self.half, self.colour);
        let size = format!(r#"x="{:.1}" y="{:.1}" width="{:.1}" height="{:.1}""#, x - w, y - h, 2.0 * w, 2.0 * h);
        let words = text([x, y + 0.36 * LETTERS], colour, r#"text-anchor="middle" font-weight="bold""#, &self.words);
        format!(r#"<rect {size} rx="3" fill="{PAPER}" stroke="{colour}"/>{words}"#)
    }
}

// ---- marks and lines

/// A colour for each edge, another one than those of the edges before it that it meets.
fn edge_colours() -> Vec<&'static str> {
    let mut colours: Vec<&str> = Vec::new();
    for (from, to, _) in EDGES {
        let meets = |(a, b, _): (usize, usize, f64)| [a, b].contains(&from) || [a, b].contains(&to);
        let fresh = |colour: &&str| !colours.iter().zip(EDGES).any(|(other, edge)| other == colour && meets(edge));
        colours.push(EDGE_COLOURS.into_iter().find(fresh).unwrap_or(INK));
    }
    colours
}

fn text([x, y]: Point, colour: &str, style: &str, words: &str) -> String {
    format!("<text x=\"{x:.1}\" y=\"{y:.1}\" fill=\"{colour}\" {style}>{words}</text>\n")
}

fn mark(peg: Peg, [x, y]: Point, size: f64, colours: &[&str]) -> String {
    let dot = |colour: &str, r: f64| format!("<circle cx=\"{x:.1}\" cy=\"{y:.1}\" r=\"{r:.1}\" fill=\"{colour}\"/>\n");
    match peg {
        Peg::Stone(_) => format!("<path d=\"M{:.1} {:.1}h{w:.1}v{w:.1}h-{w:.1}z\" fill=\"{INK}\"/>\n", x - size, y - size, w = 2.0 * size),
        Peg::OnEdge(edge, _) => dot(colours[edge], 0.8 * size),
        Peg::Inside(..) => dot("#77776a", 0.5 * size),
    }
}

fn draw_tile(page: &Page, tile: usize, laid: &Laid) -> String {
    let quads: String = laid.quads.iter().map(|quad| format!("<polygon points=\"{}\"/>\n", page.path(quad))).collect();
    format!(r##"<g fill="{}" stroke="#b5b5a4" stroke-width="0.8">{quads}</g>"##, TILE_COLOURS[tile % TILE_COLOURS.len()])
}

fn draw_edge(page: &Page, edge: usize, colour: &str) -> String {
    let points = page.path(&edge_line(edge));
    let line = |colour, width| format!("<polyline points=\"{points}\" fill=\"none\" stroke=\"{colour}\" stroke-width=\"{width}\"/>\n");
    let water = if edge == BROOK { line("#a5d3f2", 12) } else { String::new() };
    water + &line(colour, 2)
}

// ---- the page

/// The legend, with the height that the page needs for it.
fn draw_legend(plan: &Plan, colours: &[&str], x: f64) -> (String, f64) {
    let (mut svg, mut y) = (String::new(), TITLE + MARGIN);
    let mut row = |peg: Option<Peg>, colour: &str, words: &str| {
        svg += &peg.map_or(String::new(), |peg| mark(peg, [x + 8.0, y - 0.36 * LETTERS], 5.0, colours));
        svg += &text([x + 20.0, y], colour, "", words);
        y += 1.5 * LETTERS;
    };
    row(None, INK, "north is up: y grows to the north, x to the east");
    row(Some(Peg::Stone(0)), INK, "corner stone: edges begin and end here");
    row(Some(Peg::OnEdge(0, 1)), INK, "peg on an edge, in the colour of its edge");
    row(Some(Peg::Inside(0, 1, 1)), INK, "peg inside a tile");
    row(None, INK, "set the pegs of a join once, by the tile with the lower number");
    row(None, INK, &format!("the label e1: {count} is for edge 1, cut into {count} pieces", count = plan.counts[1]));
    plan.counts.iter().enumerate().for_each(|(edge, &count)| row(None, colours[edge], &edge_words(edge, plan.spacing, count)));
    plan.laid.iter().enumerate().for_each(|(tile, laid)| row(None, INK, &tile_words(tile, laid)));
    (svg, y + MARGIN)
}

pub fn draw(plan: &Plan) -> String {
    let (page, colours) = (Page::new(plan.spacing), edge_colours());
    let labels = labels(plan, &page, &colours);
    let [x, y] = page.end;
    let (legend, least_height) = draw_legend(plan, &colours, x);
    let (width, height, ruler) = (x + LEGEND, (y + RULER).max(least_height), 100.0 * page.scale);
    let bold = r#"font-weight="bold""#;
    [
        format!(r#"<svg xmlns="http://www.w3.org/2000/svg" viewBox="0 0 {width:.0} {height:.0}">"#),
        format!(r#"<g font-family="sans-serif" font-size="{LETTERS}"><rect width="100%" height="100%" fill="{PAPER}"/>"#),
        plan.laid.iter().enumerate().map(|(tile, laid)| draw_tile(&page, tile, laid)).collect(),
        (0..EDGES.len()).map(|edge| draw_edge(&page, edge, colours[edge])).collect(),
        labels.iter().map(Label::leader).collect(),
        plan.pegs.iter().map(|(&peg, &at)| mark(peg, page.at(at), page.stone, &colours)).collect(),
        labels.iter().map(Label::draw).collect(),
        text([MARGIN, 36.0], INK, &format!(r#"font-size="24" {bold}"#), "A farm set out in tiles, quads and pegs"),
        text([MARGIN, 58.0], INK, "", &format!("a peg about every {} m; {}", plan.spacing, peg_words(&plan.pegs))),
        format!(r#"<path d="M{MARGIN} {y:.1}v10h{ruler:.1}v-10" fill="none" stroke="{INK}" stroke-width="2"/>"#),
        text([MARGIN + ruler + 10.0, y + 10.0], INK, "", "100 m"),
        format!(r#"<path d="M{:.1} {}v-44m-7 14l7 -14l7 14" fill="none" stroke="{INK}" stroke-width="2"/>"#, x + 8.0, TITLE + 38.0),
        text([x + 20.0, TITLE + 16.0], INK, bold, "N"),
        legend,
        "</g></svg>\n".to_string(),
    ]
    .concat()
}
