//! Calls side by side, and how much stack they take.

use std::thread;

use ceromby::{Barge, Booking, Entry, Floor, Plan, Refusal, Report, Throughput};

use crate::{canister, fresh};

const fn moves_between_threads<T: Send + Sync>() {}

const _: () = {
    moves_between_threads::<Floor>();
    moves_between_threads::<Barge>();
    moves_between_threads::<Plan>();
    moves_between_threads::<Throughput>();
    moves_between_threads::<Report>();
    moves_between_threads::<Refusal>();
};

/// A day on the standard floor.
fn day() -> Result<(Floor, Vec<u32>), Refusal> {
    let mut floor = Floor::load(&[])?;
    let mut delivered = Vec::new();
    for number in 1..=40 {
        floor.book_anywhere(4, number)?;
        if number % 7 == 0 {
            floor.stop(5)?;
        }
        for _ in 0..6 {
            delivered.extend(floor.round()?.delivered());
        }
        if number % 7 == 0 {
            floor.repair(5)?;
        }
        floor = Floor::load(&floor.to_image()?)?;
    }
    Ok((floor, delivered))
}

#[test]
fn in_eight_threads() -> Result<(), Refusal> {
    let due = day()?;
    assert!(due.1.len() > 30);
    thread::scope(|scope| {
        let days: Vec<_> = (0..8).map(|_| scope.spawn(day)).collect();
        for other in days {
            assert_eq!(other.join().expect("no panic"), Ok(due.clone()));
        }
    });
    Ok(())
}

/// The header's figure, which the C tests measure, and room for the methods.
fn header(name: &str) -> usize {
    let header = include_str!("../../../../include/ceromby.h");
    let line = header
        .lines()
        .find_map(|line| line.strip_prefix(&format!("#define {name} ")));
    let number = line.and_then(|rest| rest.split_whitespace().next()?.parse().ok());
    number.expect("a figure")
}

fn in_stack<T: Send>(bytes: usize, work: impl FnOnce() -> T + Send) -> T {
    thread::scope(|scope| {
        let thread = thread::Builder::new().stack_size(bytes);
        let running = thread.spawn_scoped(scope, work).expect("a thread");
        running.join().expect("no panic")
    })
}

/// Every method in a thread with little stack: the header's figure, what a
/// method keeps beside it, and what a thread needs to begin.
#[test]
fn in_little_stack() -> Result<(), Refusal> {
    const BEGIN: usize = 16 * 1024;
    let (floor, barge) = (size_of::<Floor>(), size_of::<Barge>());
    let little = header("CEROMBY_STACK") + 3 * floor + BEGIN;
    let (mut held, mut plan) = (Box::new(fresh()), Box::new(Plan::new(&[Entry::new(1, 0)])?));
    in_stack(little, || -> Result<(), Refusal> {
        held.book(0, canister(1, 0, 0))?;
        held.book_anywhere(0, 2)?;
        held.book_list(&mut [Booking::new(0, canister(3, 0, 40))])?;
        held.stop(0)?;
        held.repair(0)?;
        held.keep("ALL")?;
        held.recall("ALL")?;
        held.forget("ALL")?;
        plan.release(&mut held, 1)?;
        plan.report(&held.round()?)?;
        plan.offer()?;
        held.read(0)?;
        held.page(&mut [0; 18])?;
        Throughput::new().feed(1)?;
        Ok(())
    })?;
    let image = held.to_image()?;
    let mut again = Box::new(fresh());
    in_stack(little, || again.reload(&image))?;
    assert_eq!(again, held);
    let mut four = Box::new(Barge::new([fresh(), fresh(), fresh(), fresh()], 9)?);
    let little = header("CEROMBY_BARGE_STACK") + 3 * barge + BEGIN;
    in_stack(little, || -> Result<(), Refusal> {
        four.book(0, 0, canister(1, 0, 0))?;
        four.book_anywhere(1, 0, 2)?;
        four.stop(2, 0)?;
        four.repair(2, 0)?;
        four.round(3)?;
        four.set_allowance(3)
    })
}
