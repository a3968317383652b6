//! Just as much XML as the drawings have: elements with attributes and text. What
//! isn't well formed panics with its place.

use std::collections::BTreeMap;

/// An element, with the elements in it.
#[derive(Debug, Default)]
pub struct Element {
    pub name: String,
    pub attributes: BTreeMap<String, String>,
    pub children: Vec<Element>,
    /// All text in it, but not in its children.
    pub text: String,
}

impl Element {
    /// It and all elements in it.
    pub fn all(&self) -> Vec<&Element> {
        let below = self.children.iter().flat_map(Element::all);
        std::iter::once(self).chain(below).collect()
    }

    /// The elements of a class, itself included.
    pub fn of_class(&self, class: &str) -> Vec<&Element> {
        let has = |each: &&Element| each.get("class").split(' ').any(|one| one == class);
        self.all().into_iter().filter(has).collect()
    }

    /// An attribute; empty where there is none.
    pub fn get(&self, name: &str) -> &str {
        self.attributes.get(name).map_or("", String::as_str)
    }

    /// An attribute that is a number.
    pub fn number(&self, name: &str) -> f64 {
        let text = self.get(name);
        let fault = |_| panic!("{name}=\"{text}\" of {} is no number", self.name);
        text.parse().unwrap_or_else(fault)
    }
}

/// The root element of a document. Ids are held to be unique.
pub fn parse(document: &str) -> Element {
    let mut rest = document;
    let root = element(&mut rest);
    assert_eq!(rest.trim(), "", "something after the root element");
    let mut ids: Vec<_> = root
        .all()
        .iter()
        .map(|each| each.get("id").to_string())
        .collect();
    ids.retain(|id| !id.is_empty());
    let count = ids.len();
    ids.sort();
    ids.dedup();
    assert_eq!(ids.len(), count, "an id occurs twice");
    root
}

fn element(rest: &mut &str) -> Element {
    expect(rest, "<");
    let mut this = Element {
        name: name(rest),
        ..Element::default()
    };
    while let Some(after) = rest.strip_prefix(' ') {
        *rest = after;
        let key = name(rest);
        expect(rest, "=\"");
        let value = unescaped(until(rest, '"'));
        expect(rest, "\"");
        let before = this.attributes.insert(key.clone(), value);
        assert!(before.is_none(), "{key} occurs twice in {}", this.name);
    }
    if let Some(after) = rest.strip_prefix("/>") {
        *rest = after;
        return this;
    }
    expect(rest, ">");
    loop {
        this.text += &unescaped(until(rest, '<'));
        if rest.starts_with("</") {
            break;
        }
        this.children.push(element(rest));
    }
    expect(rest, &format!("</{}>", this.name));
    this
}

fn name(rest: &mut &str) -> String {
    let end = rest.find(|letter: char| !letter.is_alphanumeric() && !"-:".contains(letter));
    let (name, after) = rest.split_at(end.unwrap_or(rest.len()));
    assert!(!name.is_empty(), "a name is missing before {:.40}", rest);
    *rest = after;
    name.to_string()
}

fn until<'a>(rest: &mut &'a str, end: char) -> &'a str {
    let at = rest
        .find(end)
        .unwrap_or_else(|| panic!("no {end} after {rest:.40}"));
    let (before, after) = rest.split_at(at);
    *rest = after;
    before
}

fn expect(rest: &mut &str, what: &str) {
    let after = rest.strip_prefix(what);
    *rest = after.unwrap_or_else(|| panic!("{what} expected before {:.40}", rest));
}

fn unescaped(text: &str) -> String {
    assert!(!text.contains('<'), "a < in {text:.40}");
    let mut parts = text.split('&');
    let mut out = parts.next().unwrap_or("").to_string();
    for part in parts {
        let (entity, after) = part
            .split_once(';')
            .unwrap_or_else(|| panic!("a bare & before {part:.40}"));
        out += match entity {
            "amp" => "&",
            "lt" => "<",
            "gt" => ">",
            "quot" => "\"",
            other => panic!("&{other}; is no entity of XML"),
        };
        out += after;
    }
    out
}
