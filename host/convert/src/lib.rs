//! Between the binding's structs and the oracle's.

use ::ceromby::raw as ceromby;
use oracle::{
    Answer, Barge, Booking, Bounded, Canister, Counters, Delivery, Entry, Floor, Layout,
    PlaceAnswer, Plan, PlanAnswer, Reading, ReleaseAnswer, Report, RoundAnswer, Settings, Tile,
    WriteAnswer,
};

/// Two functions, there and back, for a struct that has the same fields on both sides.
macro_rules! alike {
    ($name:ident: $($field:ident),+; $to:ident, $from:ident) => {
        pub fn $to(from: &$name) -> ceromby::$name {
            ceromby::$name { $($field: from.$field),+ }
        }

        fn $from(from: &ceromby::$name) -> $name {
            $name { $($field: from.$field),+ }
        }
    };
}

alike!(
    Settings: columns, rows, hoppers, sources, width, length, gap, travel;
    to_settings, from_settings
);
alike!(Counters: last, booked, delivered; to_counters, from_counters);
alike!(Canister: number, a, b; to_canister, from_canister);
alike!(Layout: name, set; to_layout, from_layout);
alike!(Delivery: numbers, count; to_delivery, from_delivery);
alike!(Entry: tile, number, label, first, second, stage; to_entry, from_entry);

pub fn to_booking(from: &Booking) -> ceromby::Booking {
    ceromby::Booking {
        tile: from.tile,
        canister: to_canister(&from.canister),
        answer: from.answer,
    }
}

pub fn from_booking(from: &ceromby::Booking) -> Booking {
    Booking {
        tile: from.tile,
        canister: from_canister(&from.canister),
        answer: from.answer,
    }
}

fn to_tile(from: Tile) -> ceromby::Tile {
    ceromby::Tile {
        running: from.running,
        distance: from.distance,
        next: ceromby::Side { code: from.next },
        token: ceromby::Side { code: from.token },
        count: from.count,
    }
}

pub fn to_floor(from: &Floor) -> ceromby::Floor {
    ceromby::Floor {
        settings: to_settings(&from.settings),
        counters: to_counters(&from.counters),
        tiles: from.tiles.map(to_tile),
        canisters: from.canisters.each_ref().map(to_canister),
        layouts: from.layouts.each_ref().map(to_layout),
    }
}

fn from_tile(from: ceromby::Tile) -> Tile {
    Tile {
        running: from.running,
        distance: from.distance,
        next: from.next.code,
        token: from.token.code,
        count: from.count,
    }
}

fn from_floor(from: &ceromby::Floor) -> Floor {
    Floor {
        settings: from_settings(&from.settings),
        counters: from_counters(&from.counters),
        tiles: from.tiles.map(from_tile),
        canisters: from.canisters.each_ref().map(from_canister),
        layouts: from.layouts.each_ref().map(from_layout),
    }
}

pub fn from_answer(from: &ceromby::Answer) -> Answer {
    Answer {
        refusal: from.refusal,
        floor: from_floor(&from.floor),
    }
}

pub fn from_placed(from: &ceromby::Placed) -> PlaceAnswer {
    PlaceAnswer {
        refusal: from.refusal,
        floor: from_floor(&from.floor),
        a: from.a,
        b: from.b,
    }
}

pub fn from_report(from: &ceromby::Report) -> Report {
    Report {
        grants: from.grants,
        reasons: from.reasons,
        missing: from.missing,
        deliveries: from.deliveries.each_ref().map(from_delivery),
    }
}

pub fn from_rounded(from: &ceromby::Rounded) -> RoundAnswer {
    RoundAnswer {
        refusal: from.refusal,
        floor: from_floor(&from.floor),
        report: from_report(&from.report),
    }
}

pub fn from_reading(from: &ceromby::Reading) -> Reading {
    Reading {
        refusal: from.refusal,
        tile: from_tile(from.tile),
        members: from.members.each_ref().map(from_canister),
    }
}

pub fn from_bounded(from: &ceromby::Bounded) -> Bounded {
    Bounded {
        rounds: from.rounds,
        connected: from.connected,
        unconnected: from.unconnected,
        refusal: from.refusal,
    }
}

pub fn from_written(from: &ceromby::Written) -> WriteAnswer {
    WriteAnswer {
        refusal: from.refusal,
        length: from.length,
    }
}

pub fn to_report(from: &Report) -> ceromby::Report {
    ceromby::Report {
        grants: from.grants,
        reasons: from.reasons,
        missing: from.missing,
        deliveries: from.deliveries.each_ref().map(to_delivery),
    }
}

pub fn to_plan(from: &Plan) -> ceromby::Plan {
    ceromby::Plan {
        entries: from.entries.each_ref().map(to_entry),
        count: from.count,
    }
}

fn from_plan(from: &ceromby::Plan) -> Plan {
    Plan {
        entries: from.entries.each_ref().map(from_entry),
        count: from.count,
    }
}

pub fn from_planned(from: &ceromby::Planned) -> PlanAnswer {
    PlanAnswer {
        refusal: from.refusal,
        plan: from_plan(&from.plan),
    }
}

pub fn from_released(from: &ceromby::Released) -> ReleaseAnswer {
    ReleaseAnswer {
        refusal: from.refusal,
        floor: from_floor(&from.floor),
        plan: from_plan(&from.plan),
        number: from.number,
        a: from.a,
        b: from.b,
    }
}

pub fn to_barge(from: &Barge) -> ceromby::Barge {
    ceromby::Barge {
        floors: from.floors.each_ref().map(to_floor),
        allowance: from.allowance,
    }
}

pub fn from_barge(from: &ceromby::Barge) -> Barge {
    Barge {
        floors: from.floors.each_ref().map(from_floor),
        allowance: from.allowance,
    }
}
