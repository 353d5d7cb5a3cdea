//! Writes HTML: elements that are closed in their order, and escaped text.

use std::fmt::Write;

pub use crate::picture::svg::escape;
use crate::show::shorten;

use reference::geometry::SECTORS;

/// The elements written so far.
pub struct Html {
    text: String,
}

impl Html {
    /// Begins with nothing.
    pub fn new() -> Html {
        Html {
            text: String::new(),
        }
    }

    /// Writes an element with these attributes around what `inner` writes.
    pub fn element(&mut self, name: &str, attributes: &str, inner: impl FnOnce(&mut Html)) {
        self.open(name, attributes);
        inner(self);
        let _ = write!(self.text, "</{name}>");
    }

    /// Writes an element on lines of its own.
    pub fn block(&mut self, name: &str, attributes: &str, inner: impl FnOnce(&mut Html)) {
        self.open(name, attributes);
        self.text.push('\n');
        inner(self);
        let _ = writeln!(self.text, "</{name}>");
    }

    /// Writes an element around words, which are escaped.
    pub fn words(&mut self, name: &str, attributes: &str, words: &str) {
        let words = escape(words);
        self.element(name, attributes, |html| html.raw(&words));
    }

    /// Writes a line of words, in an element.
    pub fn line(&mut self, name: &str, attributes: &str, words: &str) {
        self.words(name, attributes, words);
        self.text.push('\n');
    }

    /// Writes what is HTML already.
    pub fn raw(&mut self, html: &str) {
        self.text.push_str(html);
    }

    /// Hands back what was written.
    pub fn finish(self) -> String {
        self.text
    }

    fn open(&mut self, name: &str, attributes: &str) {
        // Writing to a string does not fail.
        let _ = match attributes.is_empty() {
            true => write!(self.text, "<{name}>"),
            false => write!(self.text, "<{name} {attributes}>"),
        };
    }
}

/// Escapes words, cut to at most this many characters, and makes a link of each sector
/// that they name.
pub fn linked(words: &str, most: usize) -> String {
    let words = escape(&shorten(words, most));
    let mut linked = String::new();
    let mut rest = words.as_str();
    while let Some(place) = rest.find("sector ") {
        let (before, after) = rest.split_at(place + "sector ".len());
        let digits = after.bytes().take_while(u8::is_ascii_digit).count();
        let (number, behind) = after.split_at(digits);
        linked.push_str(before);
        match number.parse::<u32>() {
            Ok(sector) if sector < SECTORS => linked.push_str(&link(sector)),
            _ => linked.push_str(number),
        }
        rest = behind;
    }
    linked + rest
}

/// Writes the link to a sector.
pub fn link(sector: u32) -> String {
    format!(r##"<a href="#sector-{sector}">{sector}</a>"##)
}

#[cfg(test)]
pub mod check {
    //! A small checker of pages for the tests.

    /// Elements that have no end.
    const VOID: [&str; 2] = ["meta", "input"];

    /// The page's elements are closed in their order, and its attributes are quoted.
    pub fn well_formed(page: &str) {
        let mut open: Vec<&str> = Vec::new();
        let page = page.strip_prefix("<!DOCTYPE html>").expect("its kind");
        let page = without_scripts(page);
        for part in page.split('<').skip(1) {
            let (tag, words) = part.split_once('>').expect("a closed tag");
            assert!(!words.contains('>'), "{part}");
            assert_eq!(tag.matches('"').count() % 2, 0, "{tag}");
            let name = tag.split([' ', '/', '\n']).find(|part| !part.is_empty());
            let name = name.expect("a name");
            if tag.starts_with('/') {
                assert_eq!(open.pop(), Some(name));
            } else if !tag.ends_with('/') && !VOID.contains(&name) {
                assert_eq!(open.is_empty(), name == "html", "{tag}");
                open.push(name);
            }
        }
        assert!(open.is_empty(), "{open:?}");
    }

    /// The page without what stands in its scripts and its style.
    fn without_scripts(page: &str) -> String {
        let mut kept = String::new();
        let mut rest = page;
        while let Some(place) = rest.find("<style").or(rest.find("<script")) {
            let begin = place + rest[place..].find('>').expect("a closed tag") + 1;
            kept.push_str(&rest[..begin]);
            let end = rest[begin..].find("</s").expect("an end");
            rest = &rest[begin + end..];
        }
        kept + rest
    }

    /// The values of the page's attribute of this name.
    pub fn values<'a>(page: &'a str, name: &str) -> Vec<&'a str> {
        let begin = format!(" {name}=\"");
        let parts = page.split(begin.as_str()).skip(1);
        parts.filter_map(|part| part.split('"').next()).collect()
    }
}

#[cfg(test)]
mod tests {
    use super::*;

    #[test]
    fn elements_nest_and_words_are_escaped() {
        let mut html = Html::new();
        html.block("ul", "class=\"a\"", |html| {
            html.words("li", "", "<script>alert(1)</script>");
        });
        let written = html.finish();
        let words = "&lt;script&gt;alert(1)&lt;/script&gt;";
        assert_eq!(
            written,
            format!("<ul class=\"a\">\n<li>{words}</li></ul>\n")
        );
    }

    #[test]
    fn sectors_are_linked() {
        let words = "spare 0 (sector 4928), sector 9792, sector <b>, sectors 1..2";
        let made = linked(words, 100);
        assert_eq!(made.matches("<a ").count(), 1, "{made}");
        assert!(
            made.contains("(sector <a href=\"#sector-4928\">4928</a>), sector 9792, sector &lt;b")
        );
        assert_eq!(linked("sector 17", 8), "sector …");
    }

    #[test]
    #[should_panic]
    fn the_checker_refuses_crossed_elements() {
        check::well_formed("<!DOCTYPE html><html><p><b></p></b></html>");
    }
}
