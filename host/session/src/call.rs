//! What is asked of a session.

use std::fmt;

use ceromby::{tiles, Booking, Canister, Entry, Name, Settings};

/// A call that may change a session. As text it is the line that is typed for
/// it, but for a list, which has several, and an image, which is in a file.
#[derive(Clone, PartialEq, Debug)]
pub enum Call {
    /// A floor without canisters comes to hand.
    Fresh {
        /// What it is made with.
        settings: Settings,
        /// Also where the floor at hand holds canisters.
        give_up: bool,
    },
    /// The floor of an image comes to hand; no bytes give the standard floor.
    Load {
        /// Its bytes, to the file's end.
        image: Vec<u8>,
        /// Also where the floor at hand holds canisters.
        give_up: bool,
    },
    /// A booking.
    Book {
        /// The fill tile.
        tile: u32,
        /// Number and place.
        canister: Canister,
    },
    /// A booking without a place.
    BookAnywhere {
        /// The fill tile.
        tile: u32,
        /// The canister's number.
        number: u32,
    },
    /// A list of bookings in one call.
    BookList(Vec<Booking>),
    /// Stops a tile.
    Stop(u32),
    /// Sets a stopped tile running.
    Repair(u32),
    /// Keeps which tiles run under a name.
    Keep(Name),
    /// Stops and repairs tiles as they were when the name was kept.
    Recall(Name),
    /// Frees a name.
    Forget(Name),
    /// One round of the floor at hand.
    Round,
    /// Begins an empty plan.
    NewPlan,
    /// Adds a waiting entry to the plan.
    Entry(Entry),
    /// Books a label of the plan.
    Release(u8),
    /// Moves the floor at hand to the barge.
    Put {
        /// Its number there, 0 to 3.
        floor: u32,
        /// Also where the barge has a floor with canisters there.
        give_up: bool,
    },
    /// Moves a floor of the barge to hand.
    Take {
        /// Its number, 0 to 3.
        floor: u32,
        /// Also where the floor at hand holds canisters.
        give_up: bool,
    },
    /// How many canisters may be on the barge's floors together. The calls on
    /// the barge refuse one that isn't 1 to 4,032.
    Allowance(u32),
    /// A call on one floor of the barge.
    On {
        /// Its number, 0 to 3.
        floor: u32,
        /// What is done there.
        call: OnFloor,
    },
}

/// A call on one floor of the barge.
#[derive(Clone, Copy, PartialEq, Eq, Debug)]
pub enum OnFloor {
    /// A booking.
    Book {
        /// The fill tile.
        tile: u32,
        /// Number and place.
        canister: Canister,
    },
    /// A booking without a place.
    BookAnywhere {
        /// The fill tile.
        tile: u32,
        /// The canister's number.
        number: u32,
    },
    /// Stops a tile.
    Stop(u32),
    /// Sets a stopped tile running.
    Repair(u32),
    /// One round.
    Round,
}

impl Call {
    /// The word that it begins with, without `!`.
    pub fn name(&self) -> &'static str {
        match self {
            Call::Fresh { .. } => "fresh",
            Call::Load { .. } => "load",
            Call::Book { .. } | Call::BookAnywhere { .. } => "book",
            Call::BookList(_) => "list",
            Call::Stop(_) => "stop",
            Call::Repair(_) => "repair",
            Call::Keep(_) => "keep",
            Call::Recall(_) => "recall",
            Call::Forget(_) => "forget",
            Call::Round => "round",
            Call::NewPlan => "plan",
            Call::Entry(_) => "entry",
            Call::Release(_) => "release",
            Call::Put { .. } => "put",
            Call::Take { .. } => "take",
            Call::Allowance(_) => "allowance",
            Call::On { call, .. } => call.name(),
        }
    }

    /// The floor of the barge that it names with `on`.
    pub fn on(&self) -> Option<u32> {
        match self {
            Call::On { floor, .. } => Some(*floor),
            _ => None,
        }
    }
}

impl OnFloor {
    /// The word that it begins with.
    pub fn name(&self) -> &'static str {
        match self {
            OnFloor::Book { .. } | OnFloor::BookAnywhere { .. } => "book",
            OnFloor::Stop(_) => "stop",
            OnFloor::Repair(_) => "repair",
            OnFloor::Round => "round",
        }
    }
}

/// `!` where a floor with canisters is given up.
fn mark(give_up: bool) -> &'static str {
    if give_up {
        "!"
    } else {
        ""
    }
}

/// Tiles of a set with commas between them; `none` for no tile.
struct Tiles(u64);

impl fmt::Display for Tiles {
    fn fmt(&self, f: &mut fmt::Formatter) -> fmt::Result {
        if self.0 == 0 {
            return f.write_str("none");
        }
        for (before, tile) in tiles(self.0).enumerate() {
            let comma = if before == 0 { "" } else { "," };
            write!(f, "{comma}{tile}")?;
        }
        Ok(())
    }
}

impl fmt::Display for Call {
    fn fmt(&self, f: &mut fmt::Formatter) -> fmt::Result {
        let name = self.name();
        match self {
            Call::Fresh { settings, give_up } => {
                let Settings {
                    columns,
                    rows,
                    hoppers,
                    sources,
                    width,
                    length,
                    gap,
                    travel,
                } = *settings;
                let (hoppers, sources) = (Tiles(hoppers), Tiles(sources));
                let mark = mark(*give_up);
                write!(f, "fresh{mark} {columns} {rows} {hoppers} {sources} ")?;
                write!(f, "{width} {length} {gap} {travel}")
            }
            Call::Load { image, give_up } => {
                write!(f, "load{} ({} bytes)", mark(*give_up), image.len())
            }
            Call::Book { tile, canister } => OnFloor::Book {
                tile: *tile,
                canister: *canister,
            }
            .fmt(f),
            Call::BookAnywhere { tile, number } => write!(f, "{name} {tile} {number}"),
            Call::BookList(list) => write!(f, "list ({} entries)", list.len()),
            Call::Stop(tile) | Call::Repair(tile) => write!(f, "{name} {tile}"),
            Call::Keep(layout) | Call::Recall(layout) | Call::Forget(layout) => {
                write!(f, "{name} {layout}")
            }
            Call::Round | Call::NewPlan => f.write_str(name),
            Call::Entry(entry) => {
                write!(f, "entry {} {}", entry.label, entry.tile)?;
                let before = [entry.first, entry.second];
                let named = before.into_iter().filter(|label| *label != 0);
                named
                    .into_iter()
                    .try_for_each(|label| write!(f, " {label}"))
            }
            Call::Release(label) => write!(f, "release {label}"),
            Call::Put { floor, give_up } | Call::Take { floor, give_up } => {
                write!(f, "{name}{} {floor}", mark(*give_up))
            }
            Call::Allowance(allowance) => write!(f, "allowance {allowance}"),
            Call::On { floor, call } => write!(f, "on {floor} {call}"),
        }
    }
}

impl fmt::Display for OnFloor {
    fn fmt(&self, f: &mut fmt::Formatter) -> fmt::Result {
        let name = self.name();
        match self {
            OnFloor::Book { tile, canister } => {
                let Canister { number, a, b } = canister;
                write!(f, "{name} {tile} {number} {a} {b}")
            }
            OnFloor::BookAnywhere { tile, number } => write!(f, "{name} {tile} {number}"),
            OnFloor::Stop(tile) | OnFloor::Repair(tile) => write!(f, "{name} {tile}"),
            OnFloor::Round => f.write_str(name),
        }
    }
}
