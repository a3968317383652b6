//! A session's rules: what is given up, what a move to the barge begins anew, and
//! that a denied call changes nothing.

use ceromby::{tile, Canister, Entry, Name, Refusal, Settings};
use ceromby_session::{json, Answer, Call, Denial, OnFloor, Session};

const PAIR: Settings = Settings {
    columns: 2,
    rows: 1,
    hoppers: 2,
    sources: 1,
    width: 100,
    length: 30,
    gap: 10,
    travel: 20,
};

fn fresh(give_up: bool) -> Call {
    Call::Fresh {
        settings: PAIR,
        give_up,
    }
}

fn book(number: u32, a: u16) -> Call {
    Call::Book {
        tile: 0,
        canister: Canister::new(number, a, 0),
    }
}

/// With one canister on the floor at hand.
fn loaded() -> Session {
    let mut session = Session::new();
    session.call(&fresh(false)).unwrap();
    session.call(&book(5, 0)).unwrap();
    session
}

/// Every call on a session without a floor and without a barge.
#[test]
fn without_a_floor() {
    let mut session = Session::new();
    let name = Name::from("NETS");
    let calls = [
        book(5, 0),
        Call::BookAnywhere { tile: 0, number: 5 },
        Call::BookList(vec![]),
        Call::Stop(0),
        Call::Repair(0),
        Call::Keep(name),
        Call::Recall(name),
        Call::Forget(name),
        Call::Round,
        Call::Release(1),
        Call::Put {
            floor: 0,
            give_up: true,
        },
    ];
    for call in &calls {
        assert_eq!(session.call(call), Err(Denial::NoFloor), "{call}");
    }
    let take = |floor| Call::Take {
        floor,
        give_up: true,
    };
    assert_eq!(session.call(&take(3)), Err(Denial::NotOnBarge(3)));
    let no_floor = Err(Denial::Refused(Refusal::NoFloor));
    assert_eq!(session.call(&take(4)), no_floor);
    let on = Call::On {
        floor: 4,
        call: OnFloor::Round,
    };
    let malformed = Err(Denial::Refused(Refusal::Malformed));
    assert_eq!(session.call(&on), malformed);
    assert_eq!(session, Session::new());
}

/// A floor that holds canisters is given up only where the call says so; what
/// the library refuses comes first.
#[test]
fn giving_up() {
    let mut session = loaded();
    let before = session.clone();
    assert_eq!(session.call(&fresh(false)), Err(Denial::Holds(1)));
    let wrong = Call::Fresh {
        settings: Settings { travel: 30, ..PAIR },
        give_up: true,
    };
    let measure = Err(Denial::Refused(Refusal::Measure));
    assert_eq!(session.call(&wrong), measure);
    let cut = Call::Load {
        image: vec![0],
        give_up: true,
    };
    let ends = Err(Denial::Refused(Refusal::ImageEnds));
    assert_eq!(session.call(&cut), ends);
    assert_eq!(session, before);

    session.call(&fresh(true)).unwrap();
    assert_eq!(session.hand().unwrap().floor.aboard(), 0);
    assert_eq!((before.runs(), session.runs()), (1, 2));
}

/// A floor keeps its run on the barge; rounds, throughput and plan begin anew.
#[test]
fn to_the_barge_and_back() {
    let mut session = loaded();
    session.call(&Call::Entry(Entry::new(1, 0))).unwrap();
    session.call(&Call::Round).unwrap();
    let put = Call::Put {
        floor: 2,
        give_up: false,
    };
    assert_eq!(session.call(&put), Ok(Answer::Put { plan_ended: true }));
    assert_eq!(session.hand(), None);
    let there = session.aboard(2).unwrap();
    assert_eq!((there.run, there.rounds, there.floor.aboard()), (1, 0, 1));

    session.call(&fresh(false)).unwrap();
    let holds = Denial::BargeHolds {
        floor: 2,
        canisters: 1,
    };
    assert_eq!(session.call(&put), Err(holds));
    session.call(&book(9, 0)).unwrap();
    let take = |give_up| Call::Take { floor: 2, give_up };
    assert_eq!(session.call(&take(false)), Err(Denial::Holds(1)));
    session.call(&take(true)).unwrap();
    let hand = session.hand().unwrap();
    assert_eq!((hand.run, hand.rounds), (1, 0));
    assert_eq!(hand.floor.counters().last, 5);
    assert!(session.aboard(2).is_none());
}

/// A barge of four floors with this allowance.
fn barge(allowance: u32) -> Session {
    let mut session = Session::new();
    for floor in 0..4 {
        session.call(&fresh(false)).unwrap();
        let put = Call::Put {
            floor,
            give_up: false,
        };
        session.call(&put).unwrap();
    }
    session.call(&Call::Allowance(allowance)).unwrap();
    session
}

fn on(floor: u32, call: OnFloor) -> Call {
    Call::On { floor, call }
}

/// A call on a floor of the barge changes that floor alone; the allowance is joint.
#[test]
fn on_the_barge() {
    let mut session = barge(1);
    let anywhere = OnFloor::BookAnywhere { tile: 0, number: 1 };
    let before = session.clone();
    let booked = Answer::Booked {
        tile: 0,
        canister: Canister::new(1, 0, 0),
    };
    assert_eq!(session.call(&on(1, anywhere)), Ok(booked));
    for other in [0, 2, 3] {
        assert_eq!(session.aboard(other), before.aboard(other));
    }
    let over = Err(Denial::Refused(Refusal::Overloaded));
    assert_eq!(session.call(&on(3, anywhere)), over);
    let mut delivered = vec![];
    while session.aboard(1).unwrap().floor.aboard() > 0 {
        let Ok(Answer::Round(round)) = session.call(&on(1, OnFloor::Round)) else {
            panic!("a round of a sound barge is accepted");
        };
        delivered.extend(round.report.delivered());
        assert_eq!(session.aboard(1).unwrap().report, Some(round.report));
    }
    assert_eq!(delivered, [1]);
    assert_eq!(session.aboard(1).unwrap().rounds, 4);
    assert_eq!(session.aboard(0).unwrap().rounds, 0);
    session.call(&on(3, anywhere)).unwrap();
    for allowance in [0, 4033] {
        session.call(&Call::Allowance(allowance)).unwrap();
        let refused = session.call(&on(0, OnFloor::Round));
        assert_eq!(refused, Err(Denial::Refused(Refusal::Malformed)));
    }
}

/// Rounds mark the labels that they deliver and close windows of 256.
#[test]
fn plan_and_throughput() {
    let mut session = Session::new();
    session.call(&fresh(false)).unwrap();
    session.call(&Call::Entry(Entry::new(1, 0))).unwrap();
    session
        .call(&Call::Entry(Entry::new(2, 0).after(1)))
        .unwrap();
    let repeated = session.call(&Call::Entry(Entry::new(2, 0)));
    assert_eq!(repeated, Err(Denial::Refused(Refusal::BadLabel)));
    assert_eq!(session.plan().entries().len(), 2);
    let early = session.call(&Call::Release(2));
    assert_eq!(early, Err(Denial::Refused(Refusal::NotReleased)));
    session.call(&Call::Release(1)).unwrap();
    let mut seen = vec![];
    for _ in 0..256 {
        let Ok(Answer::Round(round)) = session.call(&Call::Round) else {
            panic!("a round is accepted");
        };
        if !round.labels.is_empty() || !round.closed.is_empty() {
            seen.push((round.number, round.labels.clone(), round.closed.len()));
        }
    }
    assert_eq!(seen, [(4, vec![1], 0), (256, vec![], 1)]);
    let (hopper, record) = session.hand().unwrap().throughput().next().unwrap();
    assert_eq!((hopper, record.last()), (1, Some(1.0 / 256.0)));

    let mut full = Session::new();
    for label in 1..=64 {
        full.call(&Call::Entry(Entry::new(label, 0))).unwrap();
    }
    let one_more = full.call(&Call::Entry(Entry::new(64, 0)));
    assert_eq!(one_more, Err(Denial::PlanFull));
}

/// A call as the line that is typed for it, and as JSON.
#[test]
fn as_text() {
    let settings = Settings {
        hoppers: tile(0) | tile(1),
        sources: 0,
        ..PAIR
    };
    let rows = [
        (
            Call::Fresh {
                settings,
                give_up: true,
            },
            "fresh! 2 1 0,1 none 100 30 10 20",
            r#"{"columns":2,"rows":1,"hoppers":[0,1],"sources":[],"width":100,"length":30,"gap":10,"travel":20,"give_up":true}"#,
        ),
        (
            book(5, 40),
            "book 0 5 40 0",
            r#"{"tile":0,"number":5,"a":40,"b":0}"#,
        ),
        (
            on(2, OnFloor::Stop(3)),
            "on 2 stop 3",
            r#"{"on":2,"tile":3}"#,
        ),
        (
            Call::Entry(Entry::new(3, 4).after_both(1, 2)),
            "entry 3 4 1 2",
            r#"{"label":3,"tile":4,"after":[1,2],"stage":"waiting"}"#,
        ),
        (
            Call::Keep(Name::from("NETS")),
            "keep NETS",
            r#"{"name":"NETS"}"#,
        ),
        (
            Call::Load {
                image: vec![1, 255],
                give_up: false,
            },
            "load (2 bytes)",
            r#"{"image":"01ff","give_up":false}"#,
        ),
    ];
    for (call, line, object) in rows {
        assert_eq!(call.to_string(), line);
        assert_eq!(json::arguments(&call).to_string(), object);
    }
    let text = json::Json::from("a\"b\\c\nd\u{1}é");
    assert_eq!(text.to_string(), r#""a\"b\\c\nd\u0001é""#);
}
