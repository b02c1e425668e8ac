//! What the command's pictures are made of: SVG, an element on each line, in one style. The same bytes each time.

pub const MIDDLE: &str = " text-anchor=\"middle\"";
pub const END: &str = " text-anchor=\"end\"";

const STYLE: &str =
    "text{font-family:DejaVu Sans,Verdana,Arial,sans-serif;font-size:13px;fill:#1c1c1c}
.small{font-size:11px}
.name{font-size:17px;font-weight:bold}
.grid{stroke:#1c1c1c;stroke-opacity:.14}
.leader{stroke:#1c1c1c;stroke-opacity:.5}
.limit{stroke:#1c1c1c;stroke-opacity:.55;stroke-dasharray:3 4}";

pub struct Picture(String);

impl Picture {
    /// A picture of this size; the style is what it has beside the common one.
    pub fn new(width: f64, height: f64, title: &str, style: &str) -> Picture {
        let mut picture = Picture(String::new());
        picture.put(&format!(r#"<svg xmlns="http://www.w3.org/2000/svg" viewBox="0 0 {width} {height}" width="{width}" height="{height}" role="img">"#));
        picture.put(&format!("<title>{title}</title>"));
        picture.put(&format!("<style>\n{STYLE}\n{style}\n</style>"));
        picture.put(&format!(
            "<rect width=\"{width}\" height=\"{height}\" rx=\"8\" fill=\"#fafafa\"/>"
        ));
        picture
    }

    pub fn put(&mut self, text: &str) {
        self.0.push_str(text);
        self.0.push('\n');
    }

    pub fn text(&mut self, x: f64, y: f64, attributes: &str, text: &str) {
        self.put(&format!(
            "<text x=\"{x:.1}\" y=\"{y:.1}\"{attributes}>{text}</text>"
        ));
    }

    pub fn line(&mut self, kind: &str, from: (f64, f64), to: (f64, f64)) {
        self.put(&format!(
            "<path class=\"{kind}\" d=\"M{:.1} {:.1}L{:.1} {:.1}\"/>",
            from.0, from.1, to.0, to.1
        ));
    }

    /// What a key shows of an area: a small piece of its fill.
    pub fn swatch(&mut self, x: f64, y: f64, fill: &str) {
        self.put(&format!("<rect x=\"{x:.1}\" y=\"{y:.1}\" width=\"26\" height=\"15\" fill=\"{fill}\" stroke=\"#1c1c1c\" stroke-opacity=\".4\"/>"));
    }

    pub fn end(mut self) -> String {
        self.put("</svg>");
        self.0
    }
}
