//! The runs for single requests.

use oracle::random::{self, Rng};
use oracle::Floor;

use super::{arbitrary_floor, begin, damaged_floor, finish, list_settings, Failure, Run};
use crate::barges::{Follow as Loads, Named};
use crate::call::{Call, Outcome, Trouble};
use crate::plans::Follow;
use crate::tally::Tally;
use crate::throughput::{self, Follow as Feeds};
use crate::{
    arrows, barges, blank, book_lists, bounds, exchange, layouts, makers, page, places, plans,
};

/// Every pair in either order, on a well-formed floor and on a damaged one.
pub fn exchange_once(rng: &mut Rng, tally: &mut Tally) -> Result<(), Box<Failure>> {
    for sound in [true, true, false] {
        let first = match sound {
            true => arbitrary_floor(rng),
            false => damaged_floor(rng, tally).0,
        };
        finish(begin(first, sound, None), tally, |run| {
            for kinds in exchange::MADE {
                run.exchange(exchange::pair(rng, &first, kinds))?;
            }
            run.exchange(exchange::stop_twice(rng, &first))
        })?;
    }
    Ok(())
}

/// Pairs in either order on the floors of a list; then one pair in its middle
/// is exchanged, with all that comes after.
pub fn exchange_in_list(rng: &mut Rng, tally: &mut Tally) -> Result<(), Box<Failure>> {
    let first = match rng.chance(1, 2) {
        true => oracle::fresh(list_settings(rng)).floor,
        false => random::floor(rng),
    };
    finish(begin(first, true, None), tally, |run| {
        for _ in 0..rng.range(5, 50) {
            let floor = run.floor;
            if rng.chance(1, 4) {
                let kinds = rng.pick(&exchange::MADE);
                run.exchange(exchange::pair(rng, &floor, kinds))?;
            }
            run.make(makers::call(rng, &floor))?;
        }
        let middle = run.floor;
        let before = run.case.calls.len();
        let kinds = rng.pick(&exchange::MADE[..exchange::MADE.len() - 1]);
        for call in exchange::pair(rng, &middle, kinds) {
            run.make(call)?;
        }
        for _ in 0..rng.range(5, 50) {
            let floor = run.floor;
            run.make(makers::call(rng, &floor))?;
        }
        run.check()?;
        let calls = run.case.calls.split_off(before);
        run.floor = middle;
        run.exchange(calls)
    })
}

/// A floor where several sides of a tile want, and mostly rounds.
pub fn crowd(rng: &mut Rng, tally: &mut Tally) -> Result<(), Box<Failure>> {
    let first = makers::crowded_floor(rng);
    finish(begin(first, true, None), tally, |run| {
        for _ in 0..rng.range(20, 60) {
            let floor = run.floor;
            run.make(match rng.chance(3, 4) {
                true => Call::Round,
                false => makers::call(rng, &floor),
            })?;
        }
        run.check()
    })
}

/// A floor of two rows and columns or more, fresh or with any old arrows, and
/// stops and repairs that make and break ties between neighbours.
pub fn ties(rng: &mut Rng, tally: &mut Tally) -> Result<(), Box<Failure>> {
    let mut settings = list_settings(rng);
    while settings.columns < 2 || settings.rows < 2 {
        settings = list_settings(rng);
    }
    let first = match rng.chance(1, 2) {
        true => oracle::fresh(settings).floor,
        false => random::floor_with(rng, settings),
    };
    finish(begin(first, true, None), tally, |run| {
        for _ in 0..rng.below(80) {
            let floor = run.floor;
            run.make(arrows::tie_call(rng, &floor))?;
        }
        run.check()?;
        run.drain(rng, 400)
    })
}

/// Two to four hoppers; stops cut tiles off from some of them.
pub fn several(rng: &mut Rng, tally: &mut Tally) -> Result<(), Box<Failure>> {
    let mut settings = list_settings(rng);
    while settings.hopper_count() < 2 {
        settings = list_settings(rng);
    }
    let first = match rng.below(3) {
        0 => makers::delivering_floor(rng),
        1 => oracle::fresh(settings).floor,
        _ => random::floor_with(rng, settings),
    };
    finish(begin(first, true, None), tally, |run| {
        for _ in 0..rng.below(60) {
            let floor = run.floor;
            run.make(match rng.below(16) {
                0..=3 => makers::call(rng, &floor),
                4 => random::refused_call(rng, &floor).into(),
                5 => makers::loading(rng, &floor),
                _ => Call::Round,
            })?;
        }
        run.check()?;
        run.drain(rng, 400)
    })
}

/// Layouts kept, forgotten and recalled, with stops, repairs, rounds and
/// images between them.
pub fn layouts(rng: &mut Rng, tally: &mut Tally) -> Result<(), Box<Failure>> {
    let settings = list_settings(rng);
    let first = match rng.chance(1, 2) {
        true => oracle::fresh(settings).floor,
        false => random::floor_with(rng, settings),
    };
    finish(begin(first, true, None), tally, |run| {
        for _ in 0..rng.below(60) {
            let floor = run.floor;
            run.make(layouts::list_call(rng, &floor))?;
        }
        run.check()?;
        run.drain(rng, 400)
    })
}

/// A new controller: images of one to three bytes, then zero bytes; a list
/// from there on, with its floor stored and loaded between the calls.
pub fn blank(rng: &mut Rng, tally: &mut Tally) -> Result<(), Box<Failure>> {
    let first = match rng.chance(1, 2) {
        true => Floor::ZERO,
        false => random::floor(rng),
    };
    finish(begin(first, true, None), tally, |run| {
        for _ in 0..rng.below(4) {
            run.make(blank::short_load(rng))?;
        }
        run.make(blank::LOAD)?;
        for _ in 0..rng.below(60) {
            let floor = run.floor;
            match rng.below(16) {
                0 => run.store(makers::buffer_size(rng, &floor)).map(drop)?,
                1 => run.make(blank::short_load(rng)).map(drop)?,
                2..=7 => run.make(Call::Round).map(drop)?,
                _ => run.make(makers::call(rng, &floor)).map(drop)?,
            }
        }
        run.check()?;
        run.drain(rng, 1_000)
    })
}

/// A few tiles filled by bookings with and without a place.
pub fn places(rng: &mut Rng, tally: &mut Tally) -> Result<(), Box<Failure>> {
    let settings = list_settings(rng);
    let first = places::floor(rng, settings);
    finish(begin(first, true, None), tally, |run| {
        for _ in 0..rng.range(4, 40) {
            let floor = run.floor;
            run.make(places::list_call(rng, &floor))?;
        }
        run.check()
    })
}

/// Bookings by lists, with other calls between them.
pub fn book_lists(rng: &mut Rng, tally: &mut Tally) -> Result<(), Box<Failure>> {
    let first = match rng.below(4) {
        0 => makers::roomy_floor(rng),
        1 => oracle::fresh(list_settings(rng)).floor,
        2 => makers::nearly_full_floor(rng),
        _ => random::floor(rng),
    };
    finish(begin(first, true, None), tally, |run| {
        for _ in 0..rng.range(2, 10) {
            let floor = run.floor;
            run.make(match rng.chance(1, 3) {
                true => book_lists::any_list(rng, &floor),
                false => random::call(rng, &floor).into(),
            })?;
        }
        run.check()
    })
}

/// Any throughput records, each fed some times from what it gave before.
pub fn feeds(rng: &mut Rng, tally: &mut Tally) -> Result<(), Box<Failure>> {
    let calls = tally.calls;
    finish(begin(Floor::ZERO, false, None), tally, |run| {
        for _ in 0..20 {
            let (mut record, mut count) = throughput::any_feed(rng);
            run.case.calls.clear();
            for _ in 0..rng.range(1, 4) {
                let outcome = run.make(Call::Feed { record, count })?;
                if let Outcome::Fed(answer) = outcome {
                    record = answer.throughput;
                }
                count = throughput::any_count(rng);
            }
        }
        run.tally.calls = calls;
        Ok(())
    })
}

/// Pages of a floor of any size, of another well-formed one and of a damaged
/// one, to buffers of any size.
pub fn pages(rng: &mut Rng, tally: &mut Tally) -> Result<(), Box<Failure>> {
    let calls = tally.calls;
    for at in 0..3 {
        let (first, must) = match at {
            0 => (page::any_floor(rng), None),
            1 => (arbitrary_floor(rng), None),
            _ => {
                let (floor, known) = damaged_floor(rng, &mut Tally::new());
                (floor, known.then_some(30))
            }
        };
        finish(begin(first, at < 2, must), tally, |run| {
            for _ in 0..3 {
                run.case.calls.clear();
                let size = page::buffer_size(rng, &first);
                run.make(Call::Page { size })?;
            }
            Ok(())
        })?;
    }
    tally.calls = calls;
    Ok(())
}

/// The bounds of a floor with lines of stopped tiles, of one that takes long
/// and of a damaged one.
pub fn bounds(rng: &mut Rng, tally: &mut Tally) -> Result<(), Box<Failure>> {
    let mut own = Tally::new();
    for at in 0..3 {
        let (first, must) = match at {
            0 => (bounds::walled_floor(rng), None),
            1 => (bounds::slow_floor(rng), None),
            _ => {
                let (floor, known) = damaged_floor(rng, &mut Tally::new());
                (floor, known.then_some(30))
            }
        };
        finish(begin(first, at < 2, must), &mut own, |run| run.bound())?;
    }
    tally.take_bounds(&own);
    Ok(())
}

/// A small floor, run by the library for as many rounds as its bound tells.
pub fn spent_bound(rng: &mut Rng, tally: &mut Tally) -> Result<(), Box<Failure>> {
    let Some(first) = bounds::small_floor(rng) else {
        return Ok(());
    };
    let mut own = Tally::new();
    finish(begin(first, true, None), &mut own, |run| {
        run.bound()?;
        let spent = bounds::spend(&first, &mut run.tally.bounds);
        spent.inspect_err(|_| run.case.drain = true)
    })?;
    tally.take_bounds(&own);
    Ok(())
}

/// Any plans, each with an offer, a report and releases on an arbitrary floor,
/// on one without a number left and on a damaged one.
pub fn plans(rng: &mut Rng, tally: &mut Tally) -> Result<(), Box<Failure>> {
    let mut own = Tally::new();
    for at in 0..4 {
        let (first, must) = match at {
            0 => (arbitrary_floor(rng), None),
            1 => (oracle::fresh(list_settings(rng)).floor, None),
            2 => {
                let floor = arbitrary_floor(rng);
                (plans::last_number_used(rng, floor), None)
            }
            _ => {
                let (floor, known) = damaged_floor(rng, &mut Tally::new());
                (floor, known.then_some(30))
            }
        };
        finish(begin(first, at < 3, must), &mut own, |run| {
            for _ in 0..4 {
                plan_calls(rng, run, at < 3)?;
            }
            run.check()
        })?;
    }
    tally.take_plans(&own);
    Ok(())
}

/// One plan from call to call. On a damaged floor it is released alone.
fn plan_calls(rng: &mut Rng, run: &mut Run, sound: bool) -> Result<(), Trouble> {
    let floor = run.floor;
    let mut plan = Box::new(plans::any_plan(rng, &floor));
    let label = plans::any_label(rng, &plan);
    let release = Call::Release {
        plan: plan.clone(),
        label,
    };
    let released = run.make(release)?;
    if !sound {
        return Ok(());
    }
    run.make(Call::Offer { plan: plan.clone() })?;
    if let Outcome::Released(answer) = released {
        plan = answer.plan.into();
    }
    for _ in 0..2 {
        let report = plans::any_report(rng, &plan).into();
        let call = Call::Report {
            plan: plan.clone(),
            report,
        };
        if let Outcome::Planned(answer) = run.make(call)? {
            plan = answer.plan.into();
        }
    }
    run.make(Call::Offer { plan }).map(drop)
}

/// A plan of which all entries wait, offered, released and reported round after
/// round until all are delivered, with other calls between them.
pub fn whole_plan(rng: &mut Rng, tally: &mut Tally) -> Result<(), Box<Failure>> {
    let mut settings = list_settings(rng);
    while settings.sources == 0 || rng.chance(2, 3) && settings.tile_count() > 9 {
        settings = list_settings(rng);
    }
    let first = match rng.chance(1, 3) {
        true => random::floor_with(rng, settings),
        false => oracle::fresh(settings).floor,
    };
    let most = rng.pick(&[4, 8, 16, 64]);
    let mut follow = Follow::of(plans::new_plan(rng, &first, most));
    let mut own = Tally::new();
    finish(begin(first, true, None), &mut own, |run| {
        for _ in 0..400 {
            if follow.ended() {
                break;
            }
            let floor = run.floor;
            let plan = Box::new(follow.plan);
            let call = match rng.below(16) {
                0 | 1 => makers::call(rng, &floor),
                2 => Call::Release {
                    label: plans::any_label(rng, &plan),
                    plan,
                },
                3..=7 => Call::Offer { plan },
                _ => Call::Round,
            };
            let mut outcome = run.make(call.clone())?;
            follow
                .note(&call, &outcome)
                .inspect_err(|_| run.last_alone())?;
            let next = match &outcome {
                Outcome::Offered(answer) if answer.label != 0 => Call::Release {
                    plan: follow.plan.into(),
                    label: answer.label.into(),
                },
                Outcome::Round(answer) => Call::Report {
                    plan: follow.plan.into(),
                    report: answer.report.into(),
                },
                _ => continue,
            };
            outcome = run.make(next.clone())?;
            follow
                .note(&next, &outcome)
                .inspect_err(|_| run.last_alone())?;
        }
        run.check()
    })?;
    follow.tell(&mut own.plans);
    tally.take_plans(&own);
    Ok(())
}

/// Any barges, each with a few calls on any floor: sound ones, with an
/// allowance near the total, and damaged ones.
pub fn barges(rng: &mut Rng, tally: &mut Tally) -> Result<(), Box<Failure>> {
    let mut own = Tally::new();
    for at in 0..3 {
        let mut barge = barges::any_barge(rng, |rng| match rng.below(4) {
            0 => oracle::fresh(list_settings(rng)).floor,
            1 => makers::nearly_full_floor(rng),
            _ => arbitrary_floor(rng),
        });
        let mut must = None;
        if at == 2 {
            let (bad, known) = damaged_floor(rng, &mut Tally::new());
            let certain = barges::damage(rng, &mut barge, bad) || known;
            must = certain.then_some(30);
        }
        finish(begin(Floor::ZERO, false, must), &mut own, |run| {
            for _ in 0..4 {
                let floor = barges::any_floor_number(rng);
                let call = barges::any_call(rng, &barge, floor);
                let named = Named { barge, floor, call };
                run.case.calls.clear();
                if let Outcome::OnBarge(given) = run.make(Call::Barge(named.into()))? {
                    barge = given.barge;
                }
            }
            Ok(())
        })?;
    }
    if rng.chance(1, 16) {
        full_barge(rng, &mut own)?;
    }
    tally.take_barges(&own);
    Ok(())
}

/// Bookings on a barge that is full, or has room for one more canister.
fn full_barge(rng: &mut Rng, tally: &mut Tally) -> Result<(), Box<Failure>> {
    let (mut barge, floor, tile) = barges::full_barge(rng);
    finish(begin(Floor::ZERO, false, None), tally, |run| {
        for _ in 0..2 {
            let number = barge.floors[floor as usize].counters.last + 1;
            let call = Call::BookAnywhere { tile, number };
            let named = Named { barge, floor, call };
            run.case.calls.clear();
            if let Outcome::OnBarge(given) = run.make(Call::Barge(named.into()))? {
                barge = given.barge;
            }
        }
        Ok(())
    })
}

/// Bookings, stops, repairs and rounds on all four floors of a barge.
pub fn barge_list(rng: &mut Rng, tally: &mut Tally) -> Result<(), Box<Failure>> {
    let fresh = rng.chance(1, 2);
    let mut barge = barges::any_barge(rng, |rng| match fresh {
        true => oracle::fresh(list_settings(rng)).floor,
        false => random::floor(rng),
    });
    if fresh {
        barge.allowance = rng.range(1, 20) as u32;
    }
    let mut follow = Loads::of(barge);
    let mut own = Tally::new();
    finish(begin(Floor::ZERO, false, None), &mut own, |run| {
        for at in 0..rng.range(50, 200) {
            let floor = match rng.chance(1, 40) {
                true => barges::any_floor_number(rng),
                false => rng.below(4) as u32,
            };
            let lone = follow.barge.floors.get(floor as usize);
            let call = barges::list_call(rng, lone.unwrap_or(&follow.barge.floors[0]));
            let named = Named {
                barge: follow.barge,
                floor,
                call,
            };
            run.case.calls.clear();
            if let Outcome::OnBarge(given) = run.make(Call::Barge(named.clone().into()))? {
                follow.note(&named, &given, run.tally)?;
            }
            if at % 16 == 0 {
                follow.check()?;
            }
        }
        follow.check()
    })?;
    follow.tell(&mut own.barges);
    tally.take_barges(&own);
    Ok(())
}

/// A floor of which each hopper has a record, over thousands of rounds. Its
/// calls are counted apart.
pub fn throughput(rng: &mut Rng, tally: &mut Tally) -> Result<(), Box<Failure>> {
    let settings = list_settings(rng);
    let first = match rng.below(3) {
        0 => makers::delivering_floor(rng),
        1 => oracle::fresh(settings).floor,
        _ => random::floor_with(rng, settings),
    };
    let mut follow = Feeds::of(&first);
    let mut own = Tally::new();
    finish(begin(first, true, None), &mut own, |run| {
        for at in 0..rng.range(2_000, 4_000) {
            let floor = run.floor;
            let listed = random::call(rng, &floor).into();
            let call = match listed {
                Call::Book { .. } => throughput::booking(rng, &floor).unwrap_or(Call::Round),
                _ if rng.chance(1, 8) => listed,
                _ => Call::Round,
            };
            let rounds = call == Call::Round;
            let report = run.make(call)?.report();
            if rounds {
                for (at, (record, count)) in follow.feeds(&report).into_iter().enumerate() {
                    if let Outcome::Fed(answer) = run.make(Call::Feed { record, count })? {
                        let noted = follow.note(at, count, &answer);
                        noted.inspect_err(|_| run.last_alone())?;
                    }
                }
            }
            if at % 64 == 0 {
                let checked = follow.check(&run.floor);
                checked.inspect_err(|_| run.last_alone())?;
            }
        }
        run.check()?;
        let checked = follow.check(&run.floor);
        checked.inspect_err(|_| run.last_alone())
    })?;
    follow.tell(&mut tally.throughput);
    tally.throughput.add(&own.throughput);
    Ok(())
}
