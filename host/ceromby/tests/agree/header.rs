//! Every number that include/ceromby.h gives a name, against the binding's.

use std::collections::BTreeMap;

use ceromby::raw::{self, barge, plan, reason, refusal, Side};

pub const HEADER: &str = include_str!("../../../../include/ceromby.h");

/// The names with a number, without `CEROMBY_`.
pub fn defined() -> BTreeMap<String, u64> {
    let mut names = BTreeMap::new();
    for line in HEADER.lines() {
        let mut words = line.split_whitespace();
        let (Some("#define"), Some(name), Some(value)) = (words.next(), words.next(), words.next())
        else {
            continue;
        };
        if let (Some(name), Ok(number)) = (name.strip_prefix("CEROMBY_"), value.parse()) {
            let twice = names.insert(name.to_string(), number);
            assert_eq!(twice, None, "{name}");
        }
    }
    names
}

macro_rules! named {
    ($($prefix:literal $module:ident { $($name:ident)* })*) => {{
        let mut names = BTreeMap::new();
        $($(
            let number = $module::$name as u64;
            names.insert(concat!($prefix, stringify!($name)).to_string(), number);
        )*)*
        names
    }};
}

#[test]
fn as_in_c() {
    let mut ours = named! {
        "" refusal {
            ACCEPTED GRID SETS MEASURE NO_TILE NOT_A_SOURCE NUMBER_ZERO OUTSIDE STOP_OF_HOPPER
            IMAGE_ENDS OTHER_KIND RECORD_SHAPE IMAGE_MALFORMED SHORT_BUFFER MALFORMED STOPPED
            RUNNING NUMBER_USED TOO_CLOSE NO_PLACE COUNT_TOO_HIGH LIST_TOO_LONG SHORT_PAGE BAD_NAME
            NAME_NOT_HELD LAYOUTS_FULL BAD_LABEL NOT_RELEASED NO_FLOOR OVERLOADED
        }
        "REASON_" reason { STOPPED EMPTY NO_ARROW TURN NO_GAP MOVED }
        "" raw {
            DISTANCE_NONE LONGEST_IMAGE LONGEST_LIST LONGEST_PAGE MAX_HOPPERS MAX_LAYOUTS MAX_TILES
            PLACES WINDOW FED_REFUSED FED_OPEN FED_CLOSED
        }
        "" plan { MAX_ENTRIES MAX_LABEL STAGE_WAITING STAGE_BOOKED STAGE_DELIVERED }
        "" barge { FLOORS MAX_ALLOWANCE }
    };
    for (name, side) in [
        ("SIDE_NONE", Side::NONE),
        ("SIDE_WEST", Side::WEST),
        ("SIDE_SOUTH", Side::SOUTH),
        ("SIDE_NORTH", Side::NORTH),
        ("SIDE_EAST", Side::EAST),
    ] {
        ours.insert(name.to_string(), side.code.into());
    }
    let mut theirs = defined();
    // what only C has: measured, and the version in parts
    theirs.retain(|name, _| !name.ends_with("STACK") && !name.starts_with("VERSION_"));
    assert_eq!(ours, theirs);
}

/// Header, archive and binding are of one version.
#[test]
fn versions() {
    let names = defined();
    let part = |name: &str| names[&format!("VERSION_{name}")];
    let (major, minor, patch) = (part("MAJOR"), part("MINOR"), part("PATCH"));
    let ours = env!("CARGO_PKG_VERSION");
    assert_eq!(format!("{major}.{minor}.{patch}"), ours);
    let number = 10_000 * major + 100 * minor + patch;
    assert_eq!(u64::from(ceromby::version()), number);
}
