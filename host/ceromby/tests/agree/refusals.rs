//! The words of the refusals: the binding's are those of the header, and both
//! are the papers', as these stand beside the numbers in the proved crates.

use std::collections::BTreeMap;

use ceromby::Refusal;

use crate::header::{defined, HEADER};

const CRATES: [&str; 2] = [
    include_str!("../../../../crates/floor/src/refusal.rt"),
    include_str!("../../../../crates/throughput/src/lib.rt"),
];

/// What stands between the first pair of quotation marks.
fn quoted(line: &str) -> Option<&str> {
    line.split('"').nth(1)
}

/// The texts of `ceromby_refusal_text` by number.
fn in_header() -> BTreeMap<u64, &'static str> {
    let names = defined();
    let cases = HEADER.lines().filter_map(|line| {
        let (name, rest) = line.trim().strip_prefix("case CEROMBY_")?.split_once(':')?;
        Some((names[name], quoted(rest)?))
    });
    cases.collect()
}

/// The papers' words by number: the quotation above each variant.
fn in_papers() -> BTreeMap<u64, &'static str> {
    let mut words = BTreeMap::new();
    for text in CRATES {
        let mut above = None;
        for line in text.lines().map(str::trim) {
            let variant = line
                .strip_suffix(',')
                .and_then(|text| text.split_once(" = "));
            let number = variant.and_then(|(_, number)| number.parse().ok());
            if let (Some(number), Some(quotation)) = (number, above) {
                words.entry(number).or_insert(quotation);
            }
            above = line.strip_prefix("// ").and_then(quoted);
        }
    }
    words
}

#[test]
fn header_and_binding() {
    let mut due: BTreeMap<u64, &str> = Refusal::ALL
        .iter()
        .map(|refusal| (refusal.number().into(), refusal.text()))
        .collect();
    due.insert(0, "accepted");
    assert_eq!(in_header(), due);
}

/// What is wrong, by the papers' words: without the number before it, the end of
/// the sentence, and when it is checked. A word that begins the sentence is
/// small, a letter that stands for a measure isn't.
fn wrong(words: &str) -> String {
    let begin = words.find(|letter: char| !letter.is_ascii_digit() && !" ,".contains(letter));
    let mut words = &words[begin.unwrap_or(0)..];
    for end in [". ", ", checked", ", after", ", where", ", at ", " above."] {
        words = words.split_once(end).map_or(words, |(before, _)| before);
    }
    let words = words.trim_end_matches('.');
    match words.split_at(1) {
        (first, rest) if !rest.starts_with(',') => first.to_lowercase() + rest,
        _ => words.to_string(),
    }
}

/// A text is the papers' words; two go on, for what document 02 added under the
/// same number.
#[test]
fn binding_and_papers() {
    let papers = in_papers();
    assert_eq!(papers.len(), Refusal::ALL.len());
    for refusal in Refusal::ALL {
        let due = wrong(papers[&refusal.number().into()]);
        match refusal {
            Refusal::Sets | Refusal::Malformed => assert!(refusal.text().starts_with(&due)),
            _ => assert_eq!(refusal.text(), due),
        }
    }
}

#[test]
fn every_number() {
    for number in 0..=u8::MAX {
        let refusal = Refusal::of(number);
        let named = Refusal::ALL.iter().find(|named| named.number() == number);
        match refusal {
            None => assert_eq!((number, named), (0, None)),
            Some(Refusal::Unknown(other)) => {
                assert_eq!((other, named), (number, None));
                assert_eq!(Refusal::Unknown(other).to_string(), "unknown");
            }
            Some(refusal) => assert_eq!(Some(&refusal), named),
        }
        assert_eq!(refusal.map_or(0, Refusal::number), number);
    }
    assert!(Refusal::ALL.is_sorted_by_key(|refusal| refusal.number()));
    assert_eq!(Refusal::ALL.len(), 29);
}

/// As `?` in a `main` and a log line use it.
#[test]
fn as_an_error() {
    fn stop() -> Result<(), Box<dyn std::error::Error>> {
        ceromby::Floor::load(&[])?.stop(10)?;
        Ok(())
    }
    let error = stop().expect_err("a hopper");
    assert_eq!(error.to_string(), "stop of the hopper");
    assert_eq!(error.downcast_ref(), Some(&Refusal::StopOfHopper));
    assert_eq!(format!("{:>10}", Refusal::BadName), "  bad name");
    assert_eq!(format!("{error:?}"), "StopOfHopper");
}
