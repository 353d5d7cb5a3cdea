//! Writes SVG: shapes with whole numbers for places, and escaped text.

use std::fmt::Write;

use usage::outputs::DRAWN;

use crate::show::shorten;

/// Every picture is this wide.
pub const WIDTH: i32 = 1020;

/// What is drawn in both pictures has the same colour in both.
pub const INK: &str = "#1f2328";
pub const FAINT: &str = "#59636e";
pub const MOVED: &str = "#a626a4";
pub const TABLE: &str = "#0b7a75";
pub const BAD: &str = "#d1242f";

/// Words stand at least this far from the left and the right edge.
pub const EDGE: i32 = 24;

/// The lines of a legend are this far apart.
const LEGEND_LINE: i32 = 26;

/// One entry of a legend: its symbol, drawn around a place, and its words.
pub type Key = (fn(&mut Canvas, i32, i32), String);

/// The elements drawn so far.
pub struct Canvas {
    body: String,
}

impl Canvas {
    pub fn new() -> Canvas {
        Canvas {
            body: String::new(),
        }
    }

    /// A filled rectangle from its upper left corner; `style` has further
    /// attributes.
    pub fn rect(&mut self, place: (i32, i32), size: (i32, i32), style: &str) {
        let ((x, y), (width, height)) = (place, size);
        self.element(format_args!(
            r#"<rect x="{x}" y="{y}" width="{width}" height="{height}" {style}/>"#
        ));
    }

    pub fn circle(&mut self, place: (i32, i32), radius: i32, style: &str) {
        let (x, y) = place;
        self.element(format_args!(
            r#"<circle cx="{x}" cy="{y}" r="{radius}" {style}/>"#
        ));
    }

    /// A path with these steps; nothing if there are none.
    pub fn path(&mut self, steps: &str, style: &str) {
        if !steps.is_empty() {
            self.element(format_args!(r#"<path d="{steps}" {style}/>"#));
        }
    }

    /// Words that begin at a place on their base line, unless `style` anchors
    /// them otherwise.
    pub fn text(&mut self, place: (i32, i32), style: &str, words: &str) {
        let ((x, y), words) = (place, escape(words));
        self.element(format_args!(
            r#"<text x="{x}" y="{y}" {style}>{words}</text>"#
        ));
    }

    /// What `draw` draws, with words that a viewer shows under the pointer.
    pub fn tip(&mut self, words: &str, draw: impl FnOnce(&mut Canvas)) {
        let words = escape(words);
        self.element(format_args!("<g><title>{words}</title>"));
        draw(self);
        self.element(format_args!("</g>"));
    }

    /// What `draw` draws, with these attributes for all of it.
    pub fn group(&mut self, style: &str, draw: impl FnOnce(&mut Canvas)) {
        self.element(format_args!("<g {style}>"));
        draw(self);
        self.element(format_args!("</g>"));
    }

    /// The title of the picture, and a line that sums it up.
    pub fn heading(&mut self, title: &str, summary: &str) {
        let style = r#"font-size="21" font-weight="bold""#;
        self.text((EDGE, 40), style, &shorten(title, 64));
        self.text((EDGE, 64), r#"font-size="14""#, summary);
    }

    /// A legend in columns from this height on; hands back where it ends.
    pub fn legend(&mut self, top: i32, columns: usize, keys: &[Key]) -> i32 {
        let across = (WIDTH - 2 * EDGE) / columns as i32;
        for (at, (symbol, words)) in keys.iter().enumerate() {
            let x = EDGE + 12 + across * (at % columns) as i32;
            let y = top + 14 + LEGEND_LINE * (at / columns) as i32;
            symbol(self, x, y);
            self.text((x + 18, y + 4), "", words);
        }
        top + LEGEND_LINE * keys.len().div_ceil(columns) as i32
    }

    /// The whole file: the elements on a light card of this height.
    pub fn finish(self, title: &str, height: i32) -> String {
        let (title, body) = (escape(title), self.body);
        let (inner_width, inner_height) = (WIDTH - 2, height - 2);
        format!(
            r##"<svg xmlns="http://www.w3.org/2000/svg" width="{WIDTH}" height="{height}" viewBox="0 0 {WIDTH} {height}" font-family="Helvetica, Arial, 'DejaVu Sans', sans-serif" font-size="12" fill="{INK}">
{DRAWN}
<title>{title}</title>
<rect x="1" y="1" width="{inner_width}" height="{inner_height}" rx="10" fill="#ffffff" stroke="#d1d9e0"/>
{body}</svg>
"##
        )
    }

    fn element(&mut self, element: std::fmt::Arguments) {
        // Writing to a string does not fail.
        let _ = writeln!(self.body, "{element}");
    }
}

/// Text as it stands in an element: marked-up characters named, and control
/// characters, which XML has no place for, as blanks.
pub fn escape(words: &str) -> String {
    let mut escaped = String::new();
    for letter in words.chars() {
        match letter {
            '&' => escaped.push_str("&amp;"),
            '<' => escaped.push_str("&lt;"),
            '>' => escaped.push_str("&gt;"),
            '"' => escaped.push_str("&quot;"),
            '\'' => escaped.push_str("&#39;"),
            '\u{FFFE}' | '\u{FFFF}' => escaped.push(' '),
            _ if letter.is_control() => escaped.push(' '),
            _ => escaped.push(letter),
        }
    }
    escaped
}

/// Room for words in letters of this size, on the wide side.
pub fn room(words: &str, size: i32) -> i32 {
    words.chars().count() as i32 * size * 6 / 10 + 2
}

/// A count with its noun: "1 read", "2 reads".
pub fn counted(count: usize, noun: &str) -> String {
    match noun.strip_suffix('y') {
        _ if count == 1 => format!("1 {noun}"),
        Some(stem) => format!("{count} {stem}ies"),
        None if noun.ends_with('s') => format!("{count} {noun}es"),
        None => format!("{count} {noun}s"),
    }
}

#[cfg(test)]
pub mod check {
    //! A small checker of pictures for the tests.

    /// The tags of a picture, without their brackets. A comment is none.
    fn tags(svg: &str) -> impl Iterator<Item = &str> {
        let parts = svg.split('<').skip(1);
        let tags = parts.map(|part| part.split_once('>').expect("a closed tag").0);
        tags.filter(|tag| !tag.starts_with("!--"))
    }

    /// The value of a tag's attribute.
    fn value(tag: &str, name: &str) -> Option<i32> {
        let (_, rest) = tag.split_once(&format!(" {name}=\""))?;
        rest.split_once('"')?.0.parse().ok()
    }

    /// The picture is one element, and elements are closed in their order.
    pub fn well_formed(svg: &str) {
        let mut open: Vec<&str> = Vec::new();
        for tag in tags(svg) {
            assert_eq!(tag.matches('"').count() % 2, 0, "{tag}");
            let name = tag.split([' ', '/']).find(|part| !part.is_empty());
            if tag.starts_with('/') {
                assert_eq!(open.pop(), name);
            } else if !tag.ends_with('/') {
                assert_eq!(open.is_empty(), name == Some("svg"));
                open.extend(name);
            }
        }
        assert!(open.is_empty(), "{open:?}");
        assert!(svg.starts_with("<svg xmlns=") && svg.ends_with("</svg>\n"));
    }

    /// Rectangles, circles and words begin and end within the picture.
    pub fn inside(svg: &str) {
        let root = tags(svg).next().expect("a picture");
        let size = |tag, name| value(tag, name).unwrap_or(0);
        for tag in tags(svg).skip(1) {
            let radius = size(tag, "r");
            let (x, y) = (
                size(tag, "x") + size(tag, "cx"),
                size(tag, "y") + size(tag, "cy"),
            );
            assert!(x - radius >= 0 && y - radius >= 0, "{tag}");
            let (right, bottom) = (x + size(tag, "width"), y + size(tag, "height"));
            assert!(right + radius <= size(root, "width"), "{tag}");
            assert!(bottom + radius <= size(root, "height"), "{tag}");
        }
    }

    /// No number of the picture's shapes has more than one decimal.
    pub fn short_numbers(svg: &str) {
        for tag in tags(svg) {
            let mut decimals = tag.split('.').skip(1);
            let digits = |part: &str| part.chars().take_while(char::is_ascii_digit).count();
            assert!(decimals.all(|part| digits(part) <= 1), "{tag}");
        }
    }

    /// All of these.
    pub fn picture(svg: &str) {
        well_formed(svg);
        inside(svg);
        short_numbers(svg);
    }
}

#[cfg(test)]
mod tests {
    use super::*;

    #[test]
    fn escaped_text() {
        assert_eq!(
            escape("a < b & 'c' > \"d\""),
            "a &lt; b &amp; &#39;c&#39; &gt; &quot;d&quot;"
        );
        assert_eq!(escape("one\ntwo\u{0}\u{7}é→"), "one two  é→");
    }

    #[test]
    fn counts_with_nouns() {
        assert_eq!(counted(0, "bad block"), "0 bad blocks");
        assert_eq!(counted(1, "access"), "1 access");
        assert_eq!(counted(2, "access"), "2 accesses");
        assert_eq!(counted(40, "write/verify"), "40 write/verifies");
    }

    #[test]
    fn elements_nest() {
        let mut canvas = Canvas::new();
        canvas.tip("a & b", |canvas| canvas.circle((9, 9), 3, ""));
        canvas.path("", "");
        let svg = canvas.finish("t", 20);
        check::picture(&svg);
        assert!(svg.contains("<g><title>a &amp; b</title>\n<circle"));
        assert_eq!(svg.lines().nth(1), Some("<!-- drawn by the workbench -->"));
        assert!(!svg.contains("<path"));
    }

    #[test]
    #[should_panic]
    fn the_checker_refuses_crossed_elements() {
        check::well_formed("<svg xmlns=\"\"><g><text></g></text></svg>\n");
    }

    #[test]
    #[should_panic]
    fn the_checker_refuses_what_is_cut_off() {
        check::inside("<svg width=\"9\" height=\"9\"><rect x=\"5\" y=\"0\" width=\"5\"/></svg>");
    }
}
