//! The tags of an SVG: bars, lines and words, with the colours and the measures that they have.

/// Where the lanes begin, how wide they are, and the room on their right.
pub const LEFT: f64 = 160.0;
pub const WIDTH: f64 = 1040.0;
pub const RIGHT: f64 = 30.0;

/// Colours of levels 0 to 3, of the memory table, of frozen tables and what has been merged of them, and of free places.
pub const LEVELS: [&str; 4] = ["#c8553d", "#d79a2b", "#4f8a5b", "#3b6ea5"];
pub const MEMORY: &str = "#6b6b83";
pub const FROZEN: &str = "#9cc9e3";
pub const MERGED: &str = "#eaf3f9";
pub const FREE: &str = "#e4e4e4";

/// The edge of frozen tables and slices.
const EDGE: &str = "#4d8fb3";

/// Nothing is drawn narrower, so that it can be found.
const LEAST_WIDTH: f64 = 0.5;

const STYLE: &str =
    "<style>.title{font-size:15px;font-weight:bold}.lane{font-size:13px;font-weight:bold}\
.note{fill:#555}.on{fill:white;text-anchor:middle}.ice{fill:#123;text-anchor:middle}\
.row{font-size:7px;fill:#777;text-anchor:end}.slice{font-size:7px;fill:#123;text-anchor:middle}</style>\n";

/// The tags so far.
#[derive(Default)]
pub struct Paint(String);

/// Text that may stand between tags.
fn plain(text: &str) -> String {
    text.replace('&', "&amp;").replace('<', "&lt;").replace('>', "&gt;")
}

/// Whether a bar is large enough for an edge and round corners.
fn is_large(width: f64, height: f64) -> bool {
    width > 5.0 && height > 6.0
}

impl Paint {
    /// The whole picture.
    pub fn picture(self, width: f64, height: f64) -> String {
        format!(
            "<svg xmlns=\"http://www.w3.org/2000/svg\" width=\"{width:.0}\" height=\"{height:.0}\" \
             viewBox=\"0 0 {width:.0} {height:.0}\" font-family=\"sans-serif\" font-size=\"11\">\n{STYLE}\
             <rect width=\"100%\" height=\"100%\" fill=\"white\"/>\n{}</svg>\n",
            self.0
        )
    }

    pub fn words(&mut self, x: f64, y: f64, class: &str, text: &str) {
        let text = plain(text);
        self.0 += &format!("<text x=\"{x:.1}\" y=\"{y:.1}\" class=\"{class}\">{text}</text>\n");
    }

    /// A bar with a text that shows when one points at it.
    fn bar(&mut self, (x, width): (f64, f64), (y, height): (f64, f64), look: &str, tip: &str) {
        let (width, tip) = (width.max(LEAST_WIDTH), plain(tip));
        self.0 += &format!(
            "<rect x=\"{x:.2}\" y=\"{y:.2}\" width=\"{width:.2}\" height=\"{height:.2}\" {look}>\
             <title>{tip}</title></rect>\n"
        );
    }

    /// A table in one colour, with a white edge against its neighbours.
    pub fn solid(&mut self, x: (f64, f64), y: (f64, f64), colour: &str, tip: &str) {
        let edge = if is_large(x.1, y.1) { " stroke=\"white\" rx=\"3\"" } else { "" };
        self.bar(x, y, &format!("fill=\"{colour}\"{edge}"), tip);
    }

    /// A frozen table, a part of one, or a slice. What waits is darker where it is narrow, so that it is seen.
    pub fn ice(&mut self, x: (f64, f64), y: (f64, f64), colour: &str, tip: &str) {
        let edge = if is_large(x.1, y.1) { 0.8 } else { 0.2 };
        let colour = if x.1 < 4.0 && colour == FROZEN { EDGE } else { colour };
        let look = format!("fill=\"{colour}\" stroke=\"{EDGE}\" stroke-width=\"{edge}\"");
        self.bar(x, y, &look, tip);
    }

    /// The span of a table around its own keys.
    pub fn span(&mut self, x: (f64, f64), (y, height): (f64, f64), colour: &str, tip: &str) {
        let edge = if is_large(x.1, height) { 1.2 } else { 0.3 };
        let look = format!(
            "fill=\"none\" stroke=\"{colour}\" stroke-width=\"{edge}\" stroke-dasharray=\"3 2\""
        );
        self.bar(x, (y - 1.0, height + 2.0), &look, tip);
    }

    /// The first of the labels that has room in a bar.
    pub fn label(
        &mut self,
        (x, width): (f64, f64),
        (y, height): (f64, f64),
        class: &str,
        labels: &[String],
    ) {
        let fits = |text: &&String| width > 7.0 * text.len() as f64 + 4.0 && height > 11.0;
        if let Some(text) = labels.iter().find(fits) {
            self.words(x + width / 2.0, y + height / 2.0 + 4.0, class, text);
        }
    }

    /// A small label in a slice, where it has room.
    pub fn small(&mut self, (x, width): (f64, f64), (y, height): (f64, f64), text: &str) {
        if width > 5.0 * text.len() as f64 + 4.0 {
            self.words(x + width / 2.0, y + height - 1.5, "slice", text);
        }
    }

    /// A line downwards.
    pub fn line(&mut self, x: f64, from: f64, to: f64, width: f64) {
        self.0 += &format!(
            "<path d=\"M{x:.1} {from:.1}V{to:.1}\" stroke=\"{EDGE}\" stroke-width=\"{width}\"/>\n"
        );
    }

    /// A line over all the width.
    pub fn rule(&mut self, y: f64) {
        let end = LEFT + WIDTH + RIGHT / 2.0;
        self.0 += &format!("<path d=\"M16 {y:.1}H{end:.1}\" stroke=\"#ccc\"/>\n");
    }

    /// A small triangle below the tables, behind the key of a mark.
    pub fn mark(&mut self, x: f64, y: f64) {
        self.0 += &format!(
            "<path d=\"M{x:.1} {y:.1}l-4 7h8z\" fill=\"black\"><title>mark</title></path>\n"
        );
    }

    pub fn square(&mut self, (x, y): (f64, f64), side: f64, colour: &str, tip: &str) {
        self.bar((x, side), (y, side), &format!("fill=\"{colour}\""), tip);
    }

    pub fn frame(&mut self, (x, y): (f64, f64), side: f64) {
        self.bar(
            (x, side),
            (y, side),
            "fill=\"none\" stroke=\"black\" stroke-width=\"1.2\"",
            "cursor",
        );
    }

    /// What colours and edges mean, on one line.
    pub fn legend(&mut self, y: f64) {
        let (mut x, at) = (16.0, (y - 8.0, 9.0));
        for colour in LEVELS {
            self.bar((x, 9.0), at, &format!("fill=\"{colour}\""), "live table");
            x += 11.0;
        }
        x = self.meaning(x, y, "live on levels 0 to 3");
        self.span((x, 22.0), (at.0 + 1.0, 7.0), LEVELS[1], "span");
        x = self.meaning(x + 22.0, y, "span with links");
        self.span((x, 22.0), (at.0 + 1.0, 7.0), "black", "merge due");
        x = self.meaning(x + 22.0, y, "merge due");
        self.ice((x, 22.0), at, FROZEN, "frozen");
        x = self.meaning(x + 22.0, y, "frozen, waits to be merged; a link's slice");
        self.ice((x, 22.0), at, MERGED, "merged");
        x = self.meaning(x + 22.0, y, "frozen, merged already");
        self.mark(x + 4.0, at.0 + 1.0);
        self.meaning(x + 8.0, y, "mark: a tidy goes on choosing behind it");
    }

    /// The words behind a sign of the legend; gives where the next sign stands.
    fn meaning(&mut self, x: f64, y: f64, words: &str) -> f64 {
        self.words(x + 4.0, y, "note", words);
        x + 4.0 + 5.4 * words.len() as f64 + 22.0
    }
}
