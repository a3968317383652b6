//! Lists of calls.

use std::fmt::Write;

/// Numbers by chance, the same for a seed.
struct Chance(u64);

impl Chance {
    fn below(&mut self, limit: u64) -> u64 {
        // Knuth's MMIX
        self.0 = self
            .0
            .wrapping_mul(6_364_136_223_846_793_005)
            .wrapping_add(1_442_695_040_888_963_407);
        (self.0 >> 33) % limit
    }
}

/// Bookings, stops, repairs, layouts and rounds on a floor, on the next one, and
/// on a barge.
pub fn list(seed: u64) -> String {
    let mut chance = Chance(seed);
    let mut list = String::new();
    for floor in 0..4 {
        one_floor(&mut chance, &mut list, "", 12);
        let _ = writeln!(list, "put! {floor}");
    }
    list += "allowance 30\n";
    for _ in 0..12 {
        let floor = chance.below(4);
        some_calls(&mut chance, &mut list, &format!("on {floor} "), 16, 100);
    }
    list += "take 2\nround\n";
    one_floor(&mut chance, &mut list, "!", 20);
    list
}

fn one_floor(chance: &mut Chance, list: &mut String, mark: &str, calls: u64) {
    let (columns, rows) = (1 + chance.below(4), 2 + chance.below(3));
    let tiles = columns * rows;
    let hopper = chance.below(tiles);
    let fill: Vec<String> = (0..tiles)
        .filter(|tile| *tile != hopper)
        .map(|tile| tile.to_string())
        .collect();
    let travel = 1 + chance.below(29);
    let _ = writeln!(
        list,
        "fresh{mark} {columns} {rows} {hopper} {} 100 30 10 {travel}",
        fill.join(",")
    );
    for begun in 0..calls {
        some_calls(chance, list, "", tiles, 10 * begun);
    }
}

fn some_calls(chance: &mut Chance, list: &mut String, on: &str, tiles: u64, number: u64) {
    for more in 1..=3 {
        let tile = chance.below(tiles);
        let _ = writeln!(list, "{on}book {tile} {}", number + more);
    }
    let tile = chance.below(tiles);
    let call = match chance.below(6) {
        0 => format!("{on}stop {tile}"),
        1 => format!("{on}repair {tile}"),
        2 if on.is_empty() => "keep A".to_owned(),
        3 if on.is_empty() => "recall A".to_owned(),
        _ => format!("{on}rounds {}", 1 + chance.below(9)),
    };
    let _ = writeln!(list, "{call}\n{on}rounds {}", chance.below(5));
}

/// 2,000 rounds of an 8 x 8 floor that begins full, with four hoppers and a
/// booking on half of the tiles before every twentieth round.
pub fn busy(travel: u64) -> String {
    let hoppers = [18, 21, 42, 45];
    let fill: Vec<String> = (0..64)
        .filter(|tile| !hoppers.contains(tile))
        .map(|tile| tile.to_string())
        .collect();
    let mut list = format!(
        "fresh 8 8 18,21,42,45 {} 1000 220 30 {travel}\n",
        fill.join(",")
    );
    let mut number = 0;
    let mut book = |list: &mut String, tile: &str| {
        number += 1;
        let _ = writeln!(list, "book {tile} {number}");
    };
    for tile in &fill {
        (0..16).for_each(|_| book(&mut list, tile));
    }
    for twenty in 0..100 {
        list += "rounds 20\n";
        fill.iter()
            .skip(twenty % 2)
            .step_by(2)
            .for_each(|tile| book(&mut list, tile));
    }
    list
}
