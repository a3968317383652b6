//! A list of bookings in one call.

use crate::calls::book;
use crate::check::well_formed;
use crate::faults::{self, Fault};
use crate::refusal;
use crate::types::{Answer, Booking, Floor};

/// Most entries of a list of bookings.
pub const LONGEST_LIST: usize = 64;

/// Makes the bookings one after the other; each entry receives its answer.
pub fn book_list(floor: &Floor, list: &mut [Booking]) -> Answer {
    if let Some(answer) = faulty(floor, list) {
        return answer;
    }
    if list.len() > LONGEST_LIST {
        return Answer::refused(refusal::LIST_TOO_LONG, floor);
    }
    let mut after = *floor;
    for entry in list.iter_mut() {
        let answer = book(&after, entry.tile, entry.canister);
        let told = match faults::on(Fault::FirstFloorJudges) {
            true => book(floor, entry.tile, entry.canister).refusal,
            false => answer.refusal,
        };
        if told != 0 || !faults::on(Fault::RefusedWritten) {
            entry.answer = told;
        }
        after = answer.floor;
        if told != 0 && faults::on(Fault::ListStops) {
            break;
        }
    }
    if faults::on(Fault::AnswersTurned) {
        turn_answers(list);
    }
    Answer::accepted(after)
}

/// The answer of a fault that shows before the first booking.
fn faulty(floor: &Floor, list: &mut [Booking]) -> Option<Answer> {
    let refused = |refusal| Some(Answer::refused(refusal, floor));
    let long = list.len() > LONGEST_LIST;
    if faults::on(Fault::SixtyFourRefused) && list.len() == LONGEST_LIST {
        return refused(refusal::LIST_TOO_LONG);
    }
    if faults::on(Fault::LongListWritten) && long {
        write_all(list, refusal::LIST_TOO_LONG);
        return refused(refusal::LIST_TOO_LONG);
    }
    if faults::on(Fault::MalformedBeforeLong) && long && !well_formed(floor) {
        write_all(list, refusal::MALFORMED);
        return Some(Answer::accepted(*floor));
    }
    if faults::on(Fault::ListMalformed) && !long && !well_formed(floor) {
        write_all(list, refusal::MALFORMED);
        return refused(refusal::MALFORMED);
    }
    None
}

fn write_all(list: &mut [Booking], answer: u8) {
    for entry in list {
        entry.answer = answer;
    }
}

fn turn_answers(list: &mut [Booking]) {
    let last = list.len().saturating_sub(1);
    for at in 0..list.len() / 2 {
        let answer = list[at].answer;
        list[at].answer = list[last - at].answer;
        list[last - at].answer = answer;
    }
}
