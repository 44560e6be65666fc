//! SVG by hand: shapes and words with a class each, one element a line.

/// How each class is drawn. The background is always light, so that the picture can be read on any
/// page.
const STYLE: &str = "\
.paper { fill: #ffffff; }
text { fill: #24292f; font: 12px ui-monospace, 'DejaVu Sans Mono', Menlo, monospace; }
.title { font: bold 15px sans-serif; }
.name { font: bold 12px sans-serif; }
.plain { font: 12px sans-serif; fill: #57606a; }
.value { text-anchor: middle; }
.count { text-anchor: middle; font-weight: bold; }
.record { text-anchor: middle; fill: #57606a; }
.note { text-anchor: middle; fill: #9a3412; font-size: 11px; }
.moment { stroke: #d0d7de; }
.turn { stroke: #0550ae; stroke-dasharray: 4 3; }
.low { stroke: #d0d7de; }
.up { fill: #cfe3ff; }
.wave { fill: none; stroke: #0550ae; stroke-width: 2; }
.mark { fill: #9a3412; }
";

/// What a picture shows is added from the back to the front.
#[derive(Default)]
pub(super) struct Svg {
    shapes: String,
}

impl Svg {
    pub(super) fn words(&mut self, class: &str, x: usize, y: usize, words: &str) {
        if words.is_empty() {
            return;
        }
        let words = escaped(words);
        self.add(&format!(
            r#"<text class="{class}" x="{x}" y="{y}">{words}</text>"#
        ));
    }

    pub(super) fn stroke(&mut self, class: &str, from: (usize, usize), to: (usize, usize)) {
        let ((x1, y1), (x2, y2)) = (from, to);
        self.add(&format!(
            r#"<line class="{class}" x1="{x1}" y1="{y1}" x2="{x2}" y2="{y2}"/>"#
        ));
    }

    /// A rectangle from its upper left to its lower right corner.
    pub(super) fn area(&mut self, class: &str, from: (usize, usize), to: (usize, usize)) {
        let ((x, y), (right, bottom)) = (from, to);
        let (width, height) = (right - x, bottom - y);
        self.add(&format!(
            r#"<rect class="{class}" x="{x}" y="{y}" width="{width}" height="{height}"/>"#
        ));
    }

    pub(super) fn polyline(&mut self, class: &str, points: &[(usize, usize)]) {
        let points: Vec<String> = points.iter().map(|(x, y)| format!("{x},{y}")).collect();
        let points = points.join(" ");
        self.add(&format!(r#"<polyline class="{class}" points="{points}"/>"#));
    }

    /// A diamond around a point.
    pub(super) fn diamond(&mut self, class: &str, (x, y): (usize, usize)) {
        const HALF: usize = 5;
        let (left, right, top, bottom) = (x - HALF, x + HALF, y - HALF, y + HALF);
        self.add(&format!(
            r#"<polygon class="{class}" points="{left},{y} {x},{top} {right},{y} {x},{bottom}"/>"#
        ));
    }

    fn add(&mut self, shape: &str) {
        self.shapes += shape;
        self.shapes.push('\n');
    }

    /// The whole file. Who cannot see the picture is told its title and its description.
    pub(super) fn file(self, (width, height): (usize, usize), title: &str, about: &str) -> String {
        let (title, about) = (escaped(title), escaped(about));
        let shapes = self.shapes;
        format!(
            r#"<svg xmlns="http://www.w3.org/2000/svg" width="{width}" height="{height}" viewBox="0 0 {width} {height}" role="img" aria-labelledby="title about">
<title id="title">{title}</title>
<desc id="about">{about}</desc>
<style>
{STYLE}</style>
<rect class="paper" width="{width}" height="{height}"/>
{shapes}</svg>
"#
        )
    }
}

fn escaped(words: &str) -> String {
    let words = words.replace('&', "&amp;").replace('<', "&lt;");
    words.replace('>', "&gt;").replace('"', "&quot;")
}

#[cfg(test)]
mod tests {
    use super::*;
    use crate::timeline::well_formed::fault_in;

    #[test]
    fn words_are_escaped_and_nothing_is_no_element() {
        let mut svg = Svg::default();
        svg.words("plain", 1, 2, "a < b & \"c\" > d");
        svg.words("plain", 1, 2, "");
        let file = svg.file((5, 6), "t<", "d&");
        assert_eq!(fault_in(&file), None, "{file}");
        assert!(file.contains(
            "<text class=\"plain\" x=\"1\" y=\"2\">a &lt; b &amp; &quot;c&quot; &gt; d</text>\n</svg>"
        ));
    }
}
