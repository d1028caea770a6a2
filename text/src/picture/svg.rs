//! SVG elements as text. Groups carry the attributes that their elements share.

use super::paper::{Rect, Spot};
use std::fmt::{Arguments, Write};

#[derive(Default)]
pub struct Svg {
    body: String,
    open: usize,
}

impl Svg {
    fn put(&mut self, element: Arguments) {
        let indent = 2 * (self.open + 1);
        // Writing to a string does not fail.
        let _ = writeln!(self.body, "{:indent$}{element}", "");
    }

    /// Elements in a group with these attributes.
    pub fn group(&mut self, attributes: &str, draw: impl FnOnce(&mut Svg)) {
        self.put(format_args!("<g {attributes}>"));
        self.open += 1;
        draw(self);
        self.open -= 1;
        self.put(format_args!("</g>"));
    }

    pub fn line(&mut self, from: Spot, to: Spot, attributes: &str) {
        let (x1, y1, x2, y2) = (from.x, from.y, to.x, to.y);
        self.put(format_args!(
            r#"<line x1="{x1:.2}" y1="{y1:.2}" x2="{x2:.2}" y2="{y2:.2}"{attributes}/>"#
        ));
    }

    pub fn rect(&mut self, rect: &Rect, attributes: &str) {
        let (x, y, width, height) = (rect.left, rect.top, rect.width(), rect.height());
        self.put(format_args!(
            r#"<rect x="{x:.2}" y="{y:.2}" width="{width:.2}" height="{height:.2}"{attributes}/>"#
        ));
    }

    pub fn circle(&mut self, at: Spot, radius: f64, attributes: &str) {
        let (x, y) = (at.x, at.y);
        self.put(format_args!(
            r#"<circle cx="{x:.2}" cy="{y:.2}" r="{radius:.2}"{attributes}/>"#
        ));
    }

    pub fn polygon(&mut self, corners: &[Spot], attributes: &str) {
        let point = |spot: &Spot| format!("{:.2},{:.2}", spot.x, spot.y);
        let points = corners.iter().map(point).collect::<Vec<_>>().join(" ");
        self.put(format_args!(r#"<polygon points="{points}"{attributes}/>"#));
    }

    pub fn text(&mut self, at: Spot, text: &str, attributes: &str) {
        let (x, y) = (at.x, at.y);
        let text = escaped(text);
        self.put(format_args!(
            r#"<text x="{x:.2}" y="{y:.2}"{attributes}>{text}</text>"#
        ));
    }

    pub fn finish(self, width: f64, height: f64, title: &str) -> String {
        let (body, title) = (self.body, escaped(title));
        format!(
            r##"<svg xmlns="http://www.w3.org/2000/svg" viewBox="0 0 {width:.0} {height:.0}" width="{width:.0}" height="{height:.0}" font-family="DejaVu Sans Mono, Menlo, Consolas, monospace" font-size="12" fill="#222">
  <title>{title}</title>
  <rect x="0" y="0" width="{width:.0}" height="{height:.0}" fill="#fff"/>
{body}</svg>
"##
        )
    }
}

fn escaped(text: &str) -> String {
    let text = text.replace('&', "&amp;");
    text.replace('<', "&lt;").replace('>', "&gt;")
}

#[cfg(test)]
mod tests {
    use super::*;

    #[test]
    fn text_is_escaped_and_groups_are_closed() {
        let mut svg = Svg::default();
        svg.group(r#"class="a""#, |svg| {
            svg.text(Spot::new(1.0, 2.0), "a<b & c>d", "")
        });
        let expected = "  <g class=\"a\">\n    <text x=\"1.00\" y=\"2.00\">a&lt;b &amp; c&gt;d</text>\n  </g>\n";
        assert_eq!(svg.body, expected);
    }
}
