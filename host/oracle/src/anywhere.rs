//! A booking without a place.

use crate::calls::{add, checked_source};
use crate::faults::{self, Fault};
use crate::refusal;
use crate::types::{Canister, Floor, PlaceAnswer, PLACES};

/// The greatest U - l for which every pair is tried.
const ALL_PAIRS: u16 = 200;

/// Adds a canister at the place with the lowest b, then the lowest a, that
/// keeps the spacing.
pub fn book_anywhere(floor: &Floor, tile: u32, number: u32) -> PlaceAnswer {
    let refused = |refusal| {
        let told = match faults::on(Fault::RefusedPlace) {
            true => floor.settings.span(),
            false => 0,
        };
        PlaceAnswer {
            refusal,
            floor: *floor,
            a: told,
            b: told,
        }
    };
    let late = faults::on(Fault::NoPlaceBeforeUsed);
    match checked_source(floor, tile, number, None) {
        Err(refusal::NUMBER_USED) if late && place(floor, tile as usize).is_none() => {
            refused(refusal::NO_PLACE)
        }
        Err(refusal) => refused(refusal),
        Ok(tile) => match place(floor, tile) {
            None if faults::on(Fault::TooCloseAnywhere) => refused(refusal::TOO_CLOSE),
            None => refused(refusal::NO_PLACE),
            Some((a, b)) => {
                let told = match faults::on(Fault::OtherPlaceTold) {
                    true => (b, a),
                    false => (a, b),
                };
                PlaceAnswer {
                    refusal: refusal::ACCEPTED,
                    floor: add(floor, tile, Canister { number, a, b }),
                    a: told.0,
                    b: told.1,
                }
            }
        },
    }
}

fn place(floor: &Floor, tile: usize) -> Option<(u16, u16)> {
    match floor.settings.span() <= ALL_PAIRS {
        true => place_by_pairs(floor, tile),
        false => place_by_candidates(floor, tile),
    }
}

/// The place of a booking without one, by trying all pairs from 0 to U - l in
/// the paper's order. The floor is well formed and has the tile.
pub fn place_by_pairs(floor: &Floor, tile: usize) -> Option<(u16, u16)> {
    let search = Search::of(floor, tile);
    let (last_a, last_b) = search.last;
    if faults::on(Fault::LowestAFirst) {
        let mut pairs = (0..=last_a).flat_map(|a| (0..=last_b).map(move |b| (a, b)));
        return pairs.find(|pair| search.keeps(*pair));
    }
    let mut pairs = (0..=last_b).flat_map(|b| (0..=last_a).map(move |a| (a, b)));
    pairs.find(|pair| search.keeps(*pair))
}

/// The same by trying few pairs. A canister that can go no further south lies
/// at b = 0 or d north of another, and one that can go no further west at
/// a = 0 or d east of another.
pub fn place_by_candidates(floor: &Floor, tile: usize) -> Option<(u16, u16)> {
    let search = Search::of(floor, tile);
    let (last_a, last_b) = search.last;
    let columns = search.candidates(|canister| canister.a);
    let rows = search.candidates(|canister| canister.b);
    let within = |(a, b): &(u32, u32)| *a <= last_a.into() && *b <= last_b.into();
    rows.iter()
        .flat_map(|b| columns.iter().map(|a| (*a, *b)))
        .filter(within)
        .map(|(a, b)| (a as u16, b as u16))
        .filter(|pair| search.keeps(*pair))
        .min_by_key(|(a, b)| match faults::on(Fault::LowestAFirst) {
            true => (*a, *b),
            false => (*b, *a),
        })
}

/// What a place is sought among.
struct Search<'a> {
    members: &'a [Canister],
    spacing: u32,
    /// The greatest a and b.
    last: (u16, u16),
}

impl Search<'_> {
    fn of(floor: &Floor, tile: usize) -> Search<'_> {
        let span = floor.settings.span();
        let short = u16::from(faults::on(Fault::SearchShort));
        let row = u16::from(faults::on(Fault::LastRowLeftOut));
        Search {
            members: floor.members(tile),
            spacing: floor.settings.spacing() - u32::from(faults::on(Fault::PlaceTooClose)),
            last: (span - short, span - short - row),
        }
    }

    /// Whether a canister at this place differs from each by d in a or in b.
    fn keeps(&self, (a, b): (u16, u16)) -> bool {
        let canister = Canister { number: 0, a, b };
        self.members
            .iter()
            .all(|other| other.clear_of(&canister, self.spacing))
    }

    /// 0, and d beyond each canister.
    fn candidates(&self, of: impl Fn(&Canister) -> u16) -> [u32; PLACES + 1] {
        let mut candidates = [0; PLACES + 1];
        for (candidate, canister) in candidates.iter_mut().zip(self.members) {
            *candidate = u32::from(of(canister)) + self.spacing;
        }
        candidates
    }
}
