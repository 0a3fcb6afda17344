//! Charts: points and lines over two axes with ticks, units, a title and a legend at the right.

use super::scale::{label, Scale, Spread};
use super::svg::{Anchor, Mark, Svg};

/// Colours that stay apart for most eyes and in print.
pub const COLORS: [&str; 8] = [
    "#0072b2", "#d55e00", "#009e73", "#cc79a7", "#e69f00", "#56b4e9", "#7a3b00", "#444444",
];

/// Points of one kind, and how they are drawn.
pub struct Series {
    /// Its name in the legend, or none.
    pub name: String,
    pub color: String,
    /// A line through the points.
    pub line: bool,
    pub dashed: bool,
    pub mark: Option<Mark>,
    pub points: Vec<[f64; 2]>,
}

impl Series {
    /// Points alone.
    pub fn points(name: &str, color: &str, mark: Mark, points: Vec<[f64; 2]>) -> Self {
        Series {
            name: name.into(),
            color: color.into(),
            line: false,
            dashed: false,
            mark: Some(mark),
            points,
        }
    }

    /// A line alone.
    pub fn line(name: &str, color: &str, dashed: bool, points: Vec<[f64; 2]>) -> Self {
        Series {
            line: true,
            dashed,
            mark: None,
            ..Series::points(name, color, Mark::Dot, points)
        }
    }
}

/// What an axis is called, its unit among it, how it is spread, and its ends.
pub struct Axis {
    pub name: &'static str,
    pub spread: Spread,
    pub ends: [f64; 2],
}

impl Axis {
    pub fn linear(name: &'static str, ends: [f64; 2]) -> Self {
        let spread = Spread::Linear;
        Axis { name, spread, ends }
    }

    /// Equal distances for equal ratios, with ticks at powers of the base.
    pub fn log(name: &'static str, base: f64, ends: [f64; 2]) -> Self {
        let spread = Spread::Log(base);
        Axis { name, spread, ends }
    }
}

pub struct Chart {
    pub title: String,
    pub x: Axis,
    pub y: Axis,
    pub series: Vec<Series>,
}

pub const WIDTH: f64 = 880.0;
pub const HEIGHT: f64 = 440.0;
const LEFT: f64 = 100.0;
const RIGHT: f64 = 620.0;
const TOP: f64 = 50.0;
const BOTTOM: f64 = 380.0;
const GRID: &str = "#dddddd";

/// Both axes of the space that charts draw in.
fn scales(x: &Axis, y: &Axis) -> (Scale, Scale) {
    let scale = |axis: &Axis, from, to| Scale {
        spread: axis.spread,
        low: axis.ends[0],
        high: axis.ends[1],
        from,
        to,
    };
    (scale(x, LEFT, RIGHT), scale(y, BOTTOM, TOP))
}

/// The title, and the vertical axis with its grid and ticks.
fn draw_frame(svg: &mut Svg, title: &str, y_name: &str, y: &Scale) {
    svg.sized_text([LEFT, 28.0], Anchor::Start, 15.0, title);
    for tick in y.ticks() {
        let at = y.at(tick);
        svg.line([LEFT, at], [RIGHT, at], GRID, 1.0);
        svg.text([LEFT - 8.0, at + 4.5], Anchor::End, &label(tick));
    }
    svg.line([LEFT, TOP], [LEFT, BOTTOM], "black", 1.0);
    svg.line([LEFT, BOTTOM], [RIGHT, BOTTOM], "black", 1.0);
    svg.upright_text([20.0, (TOP + BOTTOM) / 2.0], y_name);
}

/// The name below the horizontal axis.
fn draw_x_name(svg: &mut Svg, name: &str) {
    svg.text([(LEFT + RIGHT) / 2.0, BOTTOM + 44.0], Anchor::Middle, name);
}

impl Chart {
    /// The picture as a file.
    pub fn drawn(&self) -> String {
        let mut svg = Svg::new(WIDTH, HEIGHT);
        let (x, y) = scales(&self.x, &self.y);
        for tick in x.ticks() {
            let at = x.at(tick);
            svg.line([at, TOP], [at, BOTTOM], GRID, 1.0);
            svg.line([at, BOTTOM], [at, BOTTOM + 5.0], "black", 1.0);
            svg.text([at, BOTTOM + 20.0], Anchor::Middle, &label(tick));
        }
        draw_frame(&mut svg, &self.title, self.y.name, &y);
        draw_x_name(&mut svg, self.x.name);
        for series in &self.series {
            draw_series(&mut svg, series, &x, &y);
        }
        let named = self.series.iter().filter(|series| !series.name.is_empty());
        for (at, series) in named.enumerate() {
            draw_key(&mut svg, series, TOP + 10.0 + 21.0 * at as f64);
        }
        svg.finish()
    }
}

/// The points of a series that lie within the axes.
fn draw_series(svg: &mut Svg, series: &Series, x: &Scale, y: &Scale) {
    let inside =
        |[at, value]: &[f64; 2]| (x.low..=x.high).contains(at) && (y.low..=y.high).contains(value);
    let points: Vec<[f64; 2]> = series
        .points
        .iter()
        .filter(|point| inside(point))
        .map(|[at, value]| [x.at(*at), y.at(*value)])
        .collect();
    if series.line {
        svg.path(&points, &series.color, series.dashed);
    }
    if let Some(mark) = series.mark {
        for point in points {
            svg.mark(mark, point, &series.color);
        }
    }
}

/// A line of the legend.
fn draw_key(svg: &mut Svg, series: &Series, at: f64) {
    let (from, to) = (RIGHT + 16.0, RIGHT + 42.0);
    if series.line {
        svg.path(&[[from, at], [to, at]], &series.color, series.dashed);
    }
    if let Some(mark) = series.mark {
        svg.mark(mark, [(from + to) / 2.0, at], &series.color);
    }
    svg.sized_text([to + 8.0, at + 4.5], Anchor::Start, 12.0, &series.name);
}

/// Bars in groups: each group has a bar of each series, from 0 or the axis's low end.
pub struct Bars {
    pub title: String,
    pub x_name: &'static str,
    pub y: Axis,
    pub groups: Vec<String>,
    /// The name of each series and its value in each group; a value may be missing.
    pub series: Vec<(String, Vec<Option<f64>>)>,
    /// How a value is written above its bar.
    pub shown: fn(f64) -> String,
}

impl Bars {
    /// The picture as a file.
    pub fn drawn(&self) -> String {
        let mut svg = Svg::new(WIDTH, HEIGHT);
        let x = Axis::linear(self.x_name, [0.0, self.groups.len() as f64]);
        let (x, y) = scales(&x, &self.y);
        draw_frame(&mut svg, &self.title, self.y.name, &y);
        draw_x_name(&mut svg, self.x_name);
        for (group, name) in self.groups.iter().enumerate() {
            svg.text(
                [x.at(group as f64 + 0.5), BOTTOM + 20.0],
                Anchor::Middle,
                name,
            );
        }
        for (at, (name, values)) in self.series.iter().enumerate() {
            let color = COLORS[at % COLORS.len()];
            for (group, value) in values.iter().enumerate() {
                if let Some(value) = value {
                    self.draw_bar(&mut svg, &x, &y, [group, at], *value);
                }
            }
            let key = TOP + 10.0 + 21.0 * at as f64;
            svg.rect([RIGHT + 22.0, key - 6.0], [14.0, 12.0], color);
            svg.sized_text([RIGHT + 46.0, key + 4.5], Anchor::Start, 12.0, name);
        }
        svg.finish()
    }

    fn draw_bar(&self, svg: &mut Svg, x: &Scale, y: &Scale, [group, at]: [usize; 2], value: f64) {
        let width = (x.at(1.0) - x.at(0.0)) * 0.84 / self.series.len() as f64;
        let left = x.at(group as f64 + 0.08) + width * at as f64;
        let end = y.at(value.clamp(y.low, y.high));
        let zero = y.at(0f64.max(y.low));
        let top = end.min(zero);
        let size = [width - 2.0, (end - zero).abs().max(0.8)];
        svg.rect([left, top], size, COLORS[at % COLORS.len()]);
        let middle = left + width / 2.0 - 1.0;
        let text = (self.shown)(value);
        svg.sized_text([middle, top - 4.0], Anchor::Middle, 10.0, &text);
    }
}
