//! Plain SVG: the elements that the pictures are made of.

use std::fmt::Write;

/// Which point of a text stands at its place.
#[derive(Clone, Copy)]
pub enum Anchor {
    Start,
    Middle,
    End,
}

impl Anchor {
    fn name(self) -> &'static str {
        match self {
            Anchor::Start => "start",
            Anchor::Middle => "middle",
            Anchor::End => "end",
        }
    }
}

/// What a point is drawn as.
#[derive(Clone, Copy, PartialEq)]
pub enum Mark {
    Dot,
    /// A square on its corner, for what was published.
    Diamond,
    Cross,
}

/// A picture that grows by elements.
pub struct Svg {
    text: String,
}

/// The text with the characters that have a meaning in XML written out.
fn escaped(text: &str) -> String {
    text.replace('&', "&amp;")
        .replace('<', "&lt;")
        .replace('>', "&gt;")
}

impl Svg {
    /// A white picture of this size.
    pub fn new(width: f64, height: f64) -> Self {
        let text = format!(
            "<svg xmlns=\"http://www.w3.org/2000/svg\" width=\"{width}\" height=\"{height}\" \
             viewBox=\"0 0 {width} {height}\" font-family=\"DejaVu Sans, Verdana, sans-serif\" font-size=\"13\">\n\
             <rect width=\"{width}\" height=\"{height}\" fill=\"white\"/>\n"
        );
        Svg { text }
    }

    fn add(&mut self, element: std::fmt::Arguments<'_>) {
        writeln!(self.text, "{element}").expect("a string can always be written");
    }

    pub fn line(&mut self, [x1, y1]: [f64; 2], [x2, y2]: [f64; 2], color: &str, width: f64) {
        self.add(format_args!(
            "<line x1=\"{x1:.1}\" y1=\"{y1:.1}\" x2=\"{x2:.1}\" y2=\"{y2:.1}\" stroke=\"{color}\" stroke-width=\"{width}\"/>"
        ));
    }

    /// A line through points; a dashed one if asked for.
    pub fn path(&mut self, points: &[[f64; 2]], color: &str, dashed: bool) {
        let points: Vec<String> = points
            .iter()
            .map(|[x, y]| format!("{x:.1},{y:.1}"))
            .collect();
        let dashes = if dashed {
            " stroke-dasharray=\"5 4\""
        } else {
            ""
        };
        self.add(format_args!(
            "<polyline points=\"{}\" fill=\"none\" stroke=\"{color}\" stroke-width=\"1.6\"{dashes}/>",
            points.join(" ")
        ));
    }

    pub fn rect(&mut self, [x, y]: [f64; 2], [width, height]: [f64; 2], color: &str) {
        self.add(format_args!(
            "<rect x=\"{x:.1}\" y=\"{y:.1}\" width=\"{width:.1}\" height=\"{height:.1}\" fill=\"{color}\"/>"
        ));
    }

    pub fn mark(&mut self, mark: Mark, [x, y]: [f64; 2], color: &str) {
        match mark {
            Mark::Dot => self.add(format_args!(
                "<circle cx=\"{x:.1}\" cy=\"{y:.1}\" r=\"3.2\" fill=\"{color}\"/>"
            )),
            Mark::Diamond => self.add(format_args!(
                "<path d=\"M {x:.1} {:.1} l 6 6 l -6 6 l -6 -6 z\" fill=\"none\" stroke=\"{color}\" stroke-width=\"2\"/>",
                y - 6.0
            )),
            Mark::Cross => self.add(format_args!(
                "<path d=\"M {:.1} {:.1} l 7 7 m 0 -7 l -7 7\" fill=\"none\" stroke=\"{color}\" stroke-width=\"1.8\"/>",
                x - 3.5,
                y - 3.5
            )),
        }
    }

    pub fn text(&mut self, [x, y]: [f64; 2], anchor: Anchor, text: &str) {
        self.sized_text([x, y], anchor, 13.0, text);
    }

    pub fn sized_text(&mut self, [x, y]: [f64; 2], anchor: Anchor, size: f64, text: &str) {
        self.add(format_args!(
            "<text x=\"{x:.1}\" y=\"{y:.1}\" font-size=\"{size}\" text-anchor=\"{}\">{}</text>",
            anchor.name(),
            escaped(text)
        ));
    }

    /// Text that is read from below upwards.
    pub fn upright_text(&mut self, [x, y]: [f64; 2], text: &str) {
        self.add(format_args!(
            "<text transform=\"translate({x:.1} {y:.1}) rotate(-90)\" text-anchor=\"middle\">{}</text>",
            escaped(text)
        ));
    }

    /// The whole file.
    pub fn finish(mut self) -> String {
        self.text.push_str("</svg>\n");
        self.text
    }
}

#[cfg(test)]
mod tests {
    use super::*;

    #[test]
    fn a_text_cannot_break_the_file() {
        let mut svg = Svg::new(10.0, 20.0);
        svg.text([1.0, 2.0], Anchor::Middle, "a < b & c > d");
        let file = svg.finish();
        assert!(file.contains("a &lt; b &amp; c &gt; d"));
        assert!(file.ends_with("</svg>\n"));
    }
}
