//! Pieces of SVG.

use super::INK;

/// The white ground keeps it readable on a dark page.
pub fn opening(width: f64, height: f64) -> String {
    format!(
        "<svg xmlns=\"http://www.w3.org/2000/svg\" viewBox=\"0 0 {width} {height}\" \
         width=\"{width}\" height=\"{height}\" font-family=\"sans-serif\" font-size=\"13\">\n"
    ) + &rectangle(0.0, 0.0, width, height, "#ffffff")
}

pub fn rectangle(x: f64, y: f64, width: f64, height: f64, colour: &str) -> String {
    format!(
        "<rect x=\"{x}\" y=\"{y:.1}\" width=\"{width:.1}\" height=\"{height}\" fill=\"{colour}\"/>\n"
    )
}

pub fn upright(place: f64, from: f64, to: f64, colour: &str, width: f64) -> String {
    format!(
        "<path d=\"M{place:.1} {from:.1}V{to:.1}\" stroke=\"{colour}\" stroke-width=\"{width}\"/>\n"
    )
}

/// A piece of text: where it stands, and how it looks.
pub struct Text {
    x: f64,
    y: f64,
    colour: &'static str,
    more: String,
}

impl Text {
    pub fn at(x: f64, y: f64) -> Self {
        Text {
            x,
            y,
            colour: INK,
            more: String::new(),
        }
    }

    pub fn coloured(mut self, colour: &'static str) -> Self {
        self.colour = colour;
        self
    }

    pub fn bold(self) -> Self {
        self.with("font-weight=\"bold\"")
    }

    pub fn large(self) -> Self {
        self.bold().with("font-size=\"17\"")
    }

    pub fn ending(self) -> Self {
        self.with("text-anchor=\"end\"")
    }

    pub fn centred(self) -> Self {
        self.with("text-anchor=\"middle\"")
    }

    fn with(mut self, attribute: &str) -> Self {
        self.more = format!("{} {attribute}", self.more);
        self
    }

    pub fn of(self, words: &str) -> String {
        let Text { x, y, colour, more } = self;
        let words = escaped(words);
        format!("<text x=\"{x:.1}\" y=\"{y:.1}\" fill=\"{colour}\"{more}>{words}</text>\n")
    }
}

/// A processor's name may hold any character.
fn escaped(words: &str) -> String {
    words.replace('&', "&amp;").replace('<', "&lt;")
}
