//! Sizes and offsets against those that the C compiler gave for the header.

use std::mem::{offset_of, size_of};

use ceromby::raw::{
    Answer, Barge, BargeAnswer, BargePlaced, BargeRounded, Booking, Bounded, Canister, Counters,
    Delivery, Entry, Floor, Layout, Name, Offered, Placed, Plan, Planned, Reading, Released,
    Report, Rounded, Settings, Side, Throughput, Tile, Told, Written,
};

macro_rules! layout {
    ($($name:literal $type:ident { $($field:ident),* })*) => {{
        let mut lines = String::new();
        $(
            lines += &format!("{} {}\n", $name, size_of::<$type>());
            $(
                let offset = offset_of!($type, $field);
                lines += &format!("{}.{} {}\n", $name, stringify!($field), offset);
            )*
        )*
        lines
    }};
}

#[test]
fn as_in_c() {
    let ours = layout! {
        "canister" Canister { number, a, b }
        "booking" Booking { tile, canister, answer }
        "side" Side { code }
        "tile" Tile { running, distance, next, token, count }
        "settings" Settings { columns, rows, hoppers, sources, width, length, gap, travel }
        "counters" Counters { last, booked, delivered }
        "name" Name { letters }
        "layout" Layout { name, set }
        "floor" Floor { settings, counters, tiles, canisters, layouts }
        "delivery" Delivery { numbers, count }
        "report" Report { grants, reasons, missing, deliveries }
        "answer" Answer { floor, refusal }
        "placed" Placed { floor, a, b, refusal }
        "rounded" Rounded { floor, report, refusal }
        "reading" Reading { refusal, tile, members }
        "bounded" Bounded { rounds, connected, unconnected, refusal }
        "written" Written { refusal, length }
        "throughput" Throughput { last, least, greatest, rounds, deliveries, closed }
        "fed" Told { throughput, rate, rounds, kind, refusal }
        "entry" Entry { tile, number, label, first, second, stage }
        "plan" Plan { entries, count }
        "offered" Offered { label, refusal }
        "planned" Planned { plan, refusal }
        "released" Released { floor, plan, number, a, b, refusal }
        "barge" Barge { floors, allowance }
        "barge_answer" BargeAnswer { barge, refusal }
        "barge_placed" BargePlaced { barge, a, b, refusal }
        "barge_rounded" BargeRounded { barge, report, refusal }
    };
    assert_eq!(ours, include_str!("../../../example/layout.txt"));
}
