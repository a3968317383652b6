//! `--json`: one object for each line, read back by a parser of the test's own.

use std::collections::BTreeMap;

use crate::common::{ceromby, PAIR};

/// A value of JSON.
#[derive(Clone, PartialEq, Debug)]
pub enum Value {
    Null,
    Bool(bool),
    Number(f64),
    Text(String),
    List(Vec<Value>),
    Object(BTreeMap<String, Value>),
}

impl Value {
    pub fn get(&self, name: &str) -> &Value {
        match self {
            Value::Object(fields) => &fields[name],
            other => panic!("{other:?} has no {name}"),
        }
    }

    fn at(&self, place: usize) -> &Value {
        match self {
            Value::List(all) => &all[place],
            other => panic!("{other:?} is no list"),
        }
    }

    pub fn text(&self) -> &str {
        match self {
            Value::Text(text) => text,
            other => panic!("{other:?} is no text"),
        }
    }

    pub fn number(&self) -> f64 {
        match self {
            Value::Number(number) => *number,
            other => panic!("{other:?} is no number"),
        }
    }
}

/// Reads values from text.
pub struct Parser<'a> {
    rest: &'a str,
}

impl Parser<'_> {
    pub fn whole(text: &str) -> Value {
        let mut parser = Parser { rest: text };
        let value = parser.value();
        assert_eq!(parser.rest, "", "{text}");
        value
    }

    fn take(&mut self, token: &str) -> bool {
        match self.rest.strip_prefix(token) {
            Some(rest) => {
                self.rest = rest;
                true
            }
            None => false,
        }
    }

    fn need(&mut self, token: &str) {
        assert!(self.take(token), "{token} before {}", self.rest);
    }

    fn value(&mut self) -> Value {
        match self.rest.chars().next() {
            Some('{') => self.object(),
            Some('[') => self.list(),
            Some('"') => Value::Text(self.string()),
            _ if self.take("null") => Value::Null,
            _ if self.take("true") => Value::Bool(true),
            _ if self.take("false") => Value::Bool(false),
            _ => self.figure(),
        }
    }

    fn object(&mut self) -> Value {
        let mut fields = BTreeMap::new();
        self.need("{");
        while !self.take("}") {
            if !fields.is_empty() {
                self.need(",");
            }
            let name = self.string();
            self.need(":");
            assert!(fields.insert(name, self.value()).is_none(), "a name twice");
        }
        Value::Object(fields)
    }

    fn list(&mut self) -> Value {
        let mut all = Vec::new();
        self.need("[");
        while !self.take("]") {
            if !all.is_empty() {
                self.need(",");
            }
            all.push(self.value());
        }
        Value::List(all)
    }

    fn figure(&mut self) -> Value {
        let end = self
            .rest
            .find(|c: char| !c.is_ascii_digit() && !"-.".contains(c));
        let (digits, rest) = self.rest.split_at(end.unwrap_or(self.rest.len()));
        self.rest = rest;
        Value::Number(digits.parse().unwrap())
    }

    fn string(&mut self) -> String {
        self.need("\"");
        let mut text = String::new();
        loop {
            let c = self.rest.chars().next().expect("a text ends");
            self.rest = &self.rest[c.len_utf8()..];
            match c {
                '"' => return text,
                '\\' => text.push(self.escaped()),
                c => {
                    assert!(c >= ' ', "a control character");
                    text.push(c);
                }
            }
        }
    }

    fn escaped(&mut self) -> char {
        let c = self.rest.chars().next().unwrap();
        self.rest = &self.rest[1..];
        match c {
            'n' => '\n',
            'r' => '\r',
            't' => '\t',
            'u' => {
                let (digits, rest) = self.rest.split_at(4);
                self.rest = rest;
                char::from_u32(u32::from_str_radix(digits, 16).unwrap()).unwrap()
            }
            c => c,
        }
    }
}

/// The objects of a run, in which each has the fields that every one has.
fn objects(input: &str) -> Vec<Value> {
    let ran = ceromby(&["--json"], input);
    let objects: Vec<Value> = ran.out.lines().map(Parser::whole).collect();
    let mut greatest = 0.0_f64;
    for object in &objects {
        for name in ["line", "call", "arguments", "refusal", "text", "gave"] {
            object.get(name);
        }
        greatest = greatest.max(object.get("status").number());
    }
    assert_eq!(ran.status, Some(greatest as i32));
    objects
}

#[test]
fn each_line_that_says_something_gives_one_object_with_its_number() {
    let objects = objects(&format!("# a remark\n{PAIR}\nround\nlift\n"));
    let lines: Vec<f64> = objects
        .iter()
        .map(|object| object.get("line").number())
        .collect();
    assert_eq!(lines, [2.0, 4.0, 5.0]);
}

#[test]
fn a_booking_tells_its_arguments_and_its_place() {
    let objects = objects(&format!("{PAIR}book 0 5\nbook 0 6 39 39\n"));
    let booked = &objects[1];
    assert_eq!(booked.get("call").text(), "book");
    assert_eq!(
        booked.get("arguments"),
        &Parser::whole(r#"{"tile":0,"number":5}"#)
    );
    assert_eq!(
        booked.get("gave"),
        &Parser::whole(r#"{"tile":0,"number":5,"a":0,"b":0}"#)
    );
    assert_eq!(booked.get("text").text(), "book: 5 at (0, 0) on tile 0");
    let refused = &objects[2];
    assert_eq!(refused.get("refusal"), &Value::Number(34.0));
    assert_eq!(refused.get("gave"), &Value::Null);
    assert!(refused.get("text").text().starts_with("book: refused 34: "));
}

#[test]
fn an_unreadable_line_tells_the_word_and_what_was_expected() {
    let objects = objects("book 0 seven\nbook 0\nlist\n");
    assert_eq!(objects[0].get("call"), &Value::Null);
    assert_eq!(objects[0].get("word").text(), "seven");
    assert_eq!(objects[0].get("expected").text(), "book TILE NUMBER [A B]");
    assert_eq!(objects[1].get("word"), &Value::Null);
    let last = objects.last().unwrap();
    assert_eq!(last.get("text").text(), "list: not sent, there is no end");
}

#[test]
fn rounds_tell_those_that_delivered_or_closed_a_window() {
    let objects = objects(&format!("{PAIR}book 0 5\nrounds 300\nuntil empty\n"));
    let gave = objects[2].get("gave");
    assert_eq!(gave.get("rounds").number(), 300.0);
    let delivered = gave.get("events").at(0);
    assert_eq!(delivered.get("round").number(), 4.0);
    assert_eq!(
        delivered
            .get("deliveries")
            .at(0)
            .get("numbers")
            .at(0)
            .number(),
        5.0
    );
    let closed = gave.get("events").at(1).get("closed").at(0);
    assert_eq!(closed.get("rate").number(), 1.0 / 256.0);
    assert_eq!(objects[3].get("gave").get("left"), &Value::List(vec![]));
}

/// Each question, and the calls that no other test here asks.
#[test]
fn questions_tell_what_they_gave() {
    let objects = objects(&format!(
        "{PAIR}book 0 5\nround\nshow\nmap\nread 0\nwhere 5\nwhy\nsettings\nbound\nthroughput\n\
         keep ALL\nlayouts\nentry 1 0\noffer\nentries\nsave \"a b\"\nload! \"a b\"\nput 2\nbarge\n\
         on 2 show\non 2 where 5\nhelp\nquit\n"
    ));
    let gave = |call: &str| {
        let found = objects
            .iter()
            .find(|object| object.get("call").text() == call);
        found.unwrap_or_else(|| panic!("{call}")).get("gave")
    };
    assert_eq!(gave("show").get("page").at(0).text(), "| 1 E  1| 0 -  0|");
    assert_eq!(
        gave("map").get("map").at(0).text(),
        "| 1 E  1| 0 -  0|  | 0f| 1H|"
    );
    assert_eq!(gave("read").get("canisters").at(0).get("a").number(), 20.0);
    assert_eq!(gave("where").get("found").at(0).get("tile").number(), 0.0);
    assert_eq!(gave("why").get("tiles").at(0).get("reason").text(), "moved");
    assert_eq!(gave("settings").get("width").number(), 100.0);
    assert_eq!(gave("bound").get("rounds").number(), 5.0);
    assert_eq!(
        gave("throughput").get("hoppers").at(0).get("last"),
        &Value::Null
    );
    assert_eq!(
        gave("layouts").get("layouts").at(0).get("name").text(),
        "ALL"
    );
    assert_eq!(gave("offer").get("label").number(), 1.0);
    assert_eq!(
        gave("entries").get("entries").at(0).get("stage").text(),
        "waiting"
    );
    assert_eq!(gave("save").get("file").text(), "a b");
    assert_eq!(gave("load").get("empty"), &Value::Bool(false));
    assert_eq!(gave("barge").get("floors").at(2).get("last").number(), 5.0);
    let asked = objects
        .iter()
        .rfind(|object| object.get("call").text() == "where")
        .unwrap();
    assert_eq!(
        asked.get("arguments"),
        &Parser::whole(r#"{"on":2,"number":5}"#)
    );
}
