//! Drawings of floors.

use std::ops::Range;

use ceromby::{Floor, Refusal, Settings};
use ceromby_tool::draw::{self, SIDE};

use crate::xml::{self, Element};
use crate::{floors, stored};

#[test]
fn drawings_are_as_stored() -> Result<(), Refusal> {
    for (name, floor) in stored_floors()? {
        stored::compare(&format!("drawings/{name}.svg"), &draw::svg(&floor));
    }
    Ok(())
}

#[test]
fn canisters_are_to_scale_within_their_tile() -> Result<(), Refusal> {
    for floor in all_floors()? {
        let root = xml::parse(&draw::svg(&floor));
        let drawn = boxes(&root);
        assert_eq!(drawn.len(), floor.canisters().count());
        let corners = corners(&root, &floor);
        for ((tile, canister), drawn) in floor.canisters().zip(&drawn) {
            let Settings { width, length, .. } = *floor.settings();
            let (west, north) = corners[tile as usize];
            let top = width - length - canister.b;
            assert_eq!(drawn.id, format!("canister-{}", canister.number));
            assert_close(drawn.x.start - west, canister.a.into());
            assert_close(drawn.y.start - north, top.into());
            assert_close(drawn.x.end - drawn.x.start, length.into());
            assert_close(drawn.y.end - drawn.y.start, length.into());
        }
    }
    Ok(())
}

#[test]
fn no_two_canisters_overlap() -> Result<(), Refusal> {
    for floor in all_floors()? {
        let drawn = boxes(&xml::parse(&draw::svg(&floor)));
        for (at, one) in drawn.iter().enumerate() {
            for other in &drawn[at + 1..] {
                let apart = |one: &Range<f64>, other: &Range<f64>| {
                    one.end <= other.start || other.end <= one.start
                };
                let clear = apart(&one.x, &other.x) || apart(&one.y, &other.y);
                assert!(clear, "{} and {} overlap", one.id, other.id);
            }
        }
    }
    Ok(())
}

#[test]
fn numbers_fit_their_canister() -> Result<(), Refusal> {
    for floor in all_floors()? {
        let root = xml::parse(&draw::svg(&floor));
        let side = f64::from(floor.settings().length);
        for (drawn, (_, canister)) in view(&root).children.iter().zip(floor.canisters()) {
            let lines: Vec<_> = drawn
                .children
                .iter()
                .filter(|each| each.name == "text")
                .collect();
            let digits: String = lines.iter().map(|line| line.text.as_str()).collect();
            assert_eq!(digits, canister.number.to_string());
            for line in lines {
                let size = line.number("font-size");
                // 0.64 is the widest digit of the fonts named
                assert!(
                    line.text.len() as f64 * 0.64 * size <= side,
                    "{digits} is too wide"
                );
                assert!(
                    line.number("y") - 0.72 * size >= 0.0,
                    "{digits} is too high"
                );
                assert!(line.number("y") <= side, "{digits} is too low");
            }
        }
    }
    Ok(())
}

#[test]
fn tiles_show_what_they_are() -> Result<(), Refusal> {
    for floor in all_floors()? {
        let root = xml::parse(&draw::svg(&floor));
        let settings = floor.settings();
        for (number, tile) in floor.tiles() {
            let drawn = by_id(&root, &format!("tile-{number}"));
            let has = |class| !drawn.of_class(class).is_empty();
            assert_eq!(has("stopped"), !tile.is_running());
            assert_eq!(has("hatch"), !tile.is_running());
            assert_eq!(has("hopper"), (settings.hoppers >> number) & 1 == 1);
            assert_eq!(has("fill"), (settings.sources >> number) & 1 == 1);
            assert_eq!(has("arrow"), tile.arrow().is_some());
            assert_eq!(drawn.of_class("number")[0].text, number.to_string());
        }
    }
    Ok(())
}

#[test]
fn north_is_up_and_west_is_left() -> Result<(), Refusal> {
    let root = xml::parse(&draw::svg(&floors::hoppers()?)); // 5 columns, 3 rows
    let place = |tile: u32| translation(by_id(&root, &format!("tile-{tile}")));
    let ((x0, y0), (x2, y2), (x12, y12)) = (place(0), place(2), place(12));
    assert!(x0 == x2 && y2 < y0, "tile 2 is north of tile 0");
    assert!(y0 == y12 && x0 < x12, "tile 12 is east of tile 0");
    Ok(())
}

fn stored_floors() -> Result<[(&'static str, Floor); 5], Refusal> {
    Ok([
        ("fresh", floors::fresh()?),
        ("busy", floors::busy()?),
        ("full", floors::full()?),
        ("hoppers", floors::hoppers()?),
        ("stopped", floors::stopped()?),
    ])
}

fn all_floors() -> Result<Vec<Floor>, Refusal> {
    let mut floors = floors::extremes()?;
    floors.extend(stored_floors()?.map(|(_, floor)| floor));
    Ok(floors)
}

/// A canister as drawn, in millimetres from the floor's north-west corner.
struct Drawn {
    id: String,
    x: Range<f64>,
    y: Range<f64>,
}

fn boxes(root: &Element) -> Vec<Drawn> {
    let drawn = |group: &Element| {
        let (x, y) = translation(group);
        let square = group.children.iter().find(|each| each.name == "rect");
        let square = square.expect("a canister has a rectangle");
        Drawn {
            id: group.get("id").to_string(),
            x: x..x + square.number("width"),
            y: y..y + square.number("height"),
        }
    };
    view(root).children.iter().map(drawn).collect()
}

/// The view with the canisters.
fn view(root: &Element) -> &Element {
    root.of_class("canisters")[0]
}

/// The north-west corner of each tile's square in the view's millimetres.
fn corners(root: &Element, floor: &Floor) -> Vec<(f64, f64)> {
    let view = view(root);
    let across = view.get("viewBox").split(' ').nth(2);
    let across: f64 = across.expect("four numbers").parse().expect("a number");
    let scale = across / view.number("width");
    assert_close(scale, f64::from(floor.settings().width) / f64::from(SIDE));
    let tiles = root.of_class("tile").into_iter().map(translation);
    tiles.map(|(x, y)| (x * scale, y * scale)).collect()
}

fn by_id<'a>(root: &'a Element, id: &str) -> &'a Element {
    let found = root.all().into_iter().find(|each| each.get("id") == id);
    found.unwrap_or_else(|| panic!("no {id}"))
}

fn translation(element: &Element) -> (f64, f64) {
    let inside = element.get("transform").strip_prefix("translate(");
    let pair = inside.and_then(|rest| rest.strip_suffix(')')?.split_once(' '));
    let (x, y) = pair.expect("a translation by two numbers");
    (x.parse().expect("a number"), y.parse().expect("a number"))
}

fn assert_close(one: f64, other: f64) {
    assert!((one - other).abs() < 1e-6, "{one} isn't {other}");
}
