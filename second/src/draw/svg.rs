//! The few shapes and texts of a drawing, in whole units.

use std::fmt::Write;

/// A place, to the right and down.
pub type Place = (i64, i64);

/// How a text is set. All are of a monospace font, so that a text's width is known.
#[derive(Clone, Copy, Debug, PartialEq, Eq)]
pub enum Font {
    Title,
    Text,
    Label,
    Cell,
    Number,
}

impl Font {
    fn class(self) -> &'static str {
        match self {
            Font::Title => "ft",
            Font::Text => "fx",
            Font::Label => "fl",
            Font::Cell => "fc",
            Font::Number => "fn",
        }
    }

    pub fn size(self) -> i64 {
        match self {
            Font::Title => 16,
            Font::Text => 12,
            Font::Label => 11,
            Font::Cell => 10,
            Font::Number => 9,
        }
    }

    /// The room that a text takes. Monospace fonts advance by 0.55 to 0.61 of their size; 0.64 is
    /// on the safe side.
    pub fn width(self, words: &str) -> i64 {
        (words.chars().count() as i64 * self.size() * 64 + 99) / 100
    }
}

/// Colours differ in brightness too, and each kind of line has its own dashes, so that a grey print
/// can be read.
const STYLE: &str = "\
text{font-family:'DejaVu Sans Mono',Menlo,Consolas,'Liberation Mono',monospace;fill:#111}\
.ft{font-size:16px;font-weight:bold}.fx{font-size:12px}.fl{font-size:11px;font-weight:bold}\
.fc{font-size:10px}.fn{font-size:9px;fill:#555}.m{text-anchor:middle}\
path,rect,circle{fill:none}\
.drives0{fill:#c6dcf1;stroke:#2c4f70}.drives1{fill:#a6c9e8;stroke:#2c4f70}\
.follows0{fill:#f7f7f4;stroke:#8b8b84}.follows1{fill:#ebebe5;stroke:#8b8b84}\
.failover{fill:#fff6de;stroke:#8a5a00}.stripes{stroke:#ecd08a}\
.outside{fill:#fff;stroke:#8b8b84;stroke-dasharray:3 3}\
.lane{stroke:#b5b5ad}.shown{fill:#fff;stroke:#111}.drop{stroke:#999;stroke-dasharray:1 3}\
.k{stroke:#111;stroke-width:1.4}.kf{fill:#111}.kh{fill:#fff;stroke:#111;stroke-width:1.2}\
.stop{stroke:#b00000;stroke-width:3}.end{stroke:#111;stroke-width:2.2}\
.val{stroke:#0072b2;stroke-width:1.5}.int{stroke:#c24a00;stroke-width:1.7;stroke-dasharray:7 2}\
.tme{stroke:#7a3fa0;stroke-width:1.7;stroke-dasharray:2 2}.ack{stroke:#8a8a8a;stroke-width:.8}";

/// The heads of the arrows, one for each colour.
const HEADS: [(&str, &str, i64); 5] = [
    ("hval", "#0072b2", 7),
    ("hint", "#c24a00", 7),
    ("htme", "#7a3fa0", 7),
    ("hend", "#111", 8),
    ("hack", "#8a8a8a", 5),
];

/// A drawing that grows shape by shape; what comes later lies on top.
#[derive(Default)]
pub struct Svg {
    body: String,
}

impl Svg {
    pub fn path(&mut self, class: &str, way: &str) {
        self.add(format_args!("<path class=\"{class}\" d=\"{way}\"/>"));
    }

    /// A path with the head of its kind at its end.
    pub fn arrow(&mut self, class: &str, way: &str) {
        self.add(format_args!(
            "<path class=\"{class}\" marker-end=\"url(#h{class})\" d=\"{way}\"/>"
        ));
    }

    pub fn rect(&mut self, class: &str, (x, y): Place, width: i64, height: i64) {
        self.add(format_args!(
            "<rect class=\"{class}\" x=\"{x}\" y=\"{y}\" width=\"{width}\" height=\"{height}\"/>"
        ));
    }

    pub fn circle(&mut self, class: &str, (x, y): Place, radius: i64) {
        self.add(format_args!("<circle class=\"{class}\" cx=\"{x}\" cy=\"{y}\" r=\"{radius}\"/>"));
    }

    /// A text that begins at a place; the place is on the line it stands on.
    pub fn text(&mut self, font: Font, (x, y): Place, words: &str) {
        let (class, words) = (font.class(), escaped(words));
        self.add(format_args!("<text class=\"{class}\" x=\"{x}\" y=\"{y}\">{words}</text>"));
    }

    /// A text with its middle at a place.
    pub fn centred(&mut self, font: Font, (x, y): Place, words: &str) {
        let (class, words) = (font.class(), escaped(words));
        self.add(format_args!("<text class=\"{class} m\" x=\"{x}\" y=\"{y}\">{words}</text>"));
    }

    fn add(&mut self, shape: std::fmt::Arguments) {
        writeln!(self.body, "{shape}").expect("a String takes every line");
    }

    /// The whole file: nothing in it is fetched from elsewhere, and nothing in it runs.
    pub fn file(&self, width: i64, height: i64, title: &str) -> String {
        let heads: String =
            HEADS.iter().map(|(id, colour, size)| head(id, colour, *size)).collect();
        let body = &self.body;
        let title = escaped(title);
        format!(
            "<svg xmlns=\"http://www.w3.org/2000/svg\" viewBox=\"0 0 {width} {height}\" \
             width=\"{width}\" height=\"{height}\" role=\"img\">\n\
             <title>{title}</title>\n<style>{STYLE}</style>\n<defs>\n\
             {heads}</defs>\n\
             <rect width=\"{width}\" height=\"{height}\" style=\"fill:#fff\"/>\n{body}</svg>\n"
        )
    }
}

fn head(id: &str, colour: &str, size: i64) -> String {
    format!(
        "<marker id=\"{id}\" viewBox=\"0 0 10 10\" refX=\"10\" refY=\"5\" markerWidth=\"{size}\" \
         markerHeight=\"{size}\" markerUnits=\"userSpaceOnUse\" orient=\"auto\">\
         <path d=\"M0 1L10 5L0 9z\" style=\"fill:{colour}\"/></marker>\n"
    )
}

fn escaped(words: &str) -> String {
    words.replace('&', "&amp;").replace('<', "&lt;").replace('>', "&gt;")
}
