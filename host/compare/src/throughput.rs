//! Throughput records (request [2]): feeds made by both, held to the paper by
//! arithmetic on f64, and what the runs met of them.

use ::ceromby::raw::{self as ceromby, FED_CLOSED, FED_OPEN, FED_REFUSED};
use oracle::random::Rng;
use oracle::{Canister, Fed, FeedAnswer, Floor, Report, Throughput, MAX_HOPPERS, WINDOW};

use crate::call::{Call, Trouble};

/// A feed as C gets it. Beside a refusal or an open window the rate is 0,
/// beside a refusal or a closed one the rounds are. The binding's own answer
/// must be the same.
pub fn by_library(record: &Throughput, count: u32) -> FeedAnswer {
    let record = ceromby::Throughput {
        last: record.last,
        least: record.least,
        greatest: record.greatest,
        rounds: record.rounds,
        deliveries: record.deliveries,
        closed: record.closed,
    };
    let told = ceromby::as_in_c::feed(&record, count);
    let answer = FeedAnswer {
        throughput: from(&told.throughput),
        fed: match (told.kind, told.refusal, told.rounds, told.rate.to_bits()) {
            (FED_REFUSED, refusal, 0, 0) => Err(refusal),
            (FED_OPEN, 0, rounds, 0) => Ok(Fed::Open { rounds }),
            (FED_CLOSED, 0, 0, _) => Ok(Fed::Closed { rate: told.rate }),
            _ => panic!("feed answers {told:?}"),
        },
    };
    let bound = match ceromby::feed(&record, count) {
        Ok((after, fed)) => FeedAnswer {
            throughput: from(&after),
            fed: Ok(match fed {
                ceromby::Fed::Open { rounds } => Fed::Open { rounds },
                ceromby::Fed::Closed { rate } => Fed::Closed { rate },
            }),
        },
        Err(refusal) => FeedAnswer {
            fed: Err(refusal),
            ..answer
        },
    };
    assert!(
        bound == answer,
        "the binding gives another answer to a feed"
    );
    answer
}

fn from(from: &ceromby::Throughput) -> Throughput {
    Throughput {
        last: from.last,
        least: from.least,
        greatest: from.greatest,
        rounds: from.rounds,
        deliveries: from.deliveries,
        closed: from.closed,
    }
}

/// Whether a rate times 256 is a whole number from 0 to 1,024, and the rate
/// isn't negative zero.
fn is_rate(rate: f64) -> bool {
    let scaled = rate * 256.0;
    (0.0..=1_024.0).contains(&scaled) && scaled.fract() == 0.0 && rate.is_sign_positive()
}

fn is_sound(record: &Throughput) -> bool {
    let rates = [record.least, record.last, record.greatest];
    record.rounds < WINDOW
        && u32::from(record.deliveries) <= 4 * u32::from(record.rounds)
        && rates.into_iter().all(is_rate)
        && rates.is_sorted()
        && (record.closed != 0 || rates == [0.0; 3])
}

fn broken<T>(text: String) -> Result<T, Trouble> {
    Err(Trouble::promise("throughput", text))
}

/// Holds a feed to what the record and the count ask for.
pub fn check(record: &Throughput, count: u32, answer: &FeedAnswer) -> Result<(), Trouble> {
    let due = match is_sound(record) {
        false => 30,
        true if count > 4 => 41,
        true => 0,
    };
    if answer.fed.err().unwrap_or(0) != due {
        return broken(format!("feed answers {:?}, not {due}", answer.fed));
    }
    let fits = match answer.fed {
        Err(_) => answer.throughput == *record,
        Ok(Fed::Open { rounds }) => {
            let open = Throughput {
                rounds,
                deliveries: record.deliveries + count as u16,
                ..*record
            };
            rounds == record.rounds + 1 && rounds < WINDOW && answer.throughput == open
        }
        Ok(Fed::Closed { rate }) => {
            let first = record.closed == 0;
            let after = Throughput {
                last: rate,
                least: if first { rate } else { rate.min(record.least) },
                greatest: if first {
                    rate
                } else {
                    rate.max(record.greatest)
                },
                rounds: 0,
                deliveries: 0,
                closed: 1,
            };
            record.rounds == WINDOW - 1
                && rate * 256.0 == f64::from(record.deliveries) + f64::from(count)
                && is_rate(rate)
                && answer.throughput == after
        }
    };
    match fits {
        true => Ok(()),
        false => broken(format!("feeding {count} gives {answer:?}")),
    }
}

/// What a rate can be; those from `BAD` on are 30.
const RATES: [&str; 17] = [
    "0",
    "1/256 to 1,023/256",
    "4",
    "negative zero",
    "negative",
    "subnormal",
    "just above a rate",
    "just below a rate",
    "other fraction",
    "1,025/256",
    "greater",
    "infinity",
    "minus infinity",
    "quiet NaN",
    "signalling NaN",
    "NaN with sign",
    "negative subnormal",
];
const BAD: usize = 3;

/// The place of a rate among `RATES`.
fn kind(rate: f64) -> usize {
    match rate {
        _ if rate.is_nan() && rate.is_sign_negative() => 15,
        _ if rate.is_nan() && rate.to_bits() >> 51 & 1 == 0 => 14,
        _ if rate.is_nan() => 13,
        f64::NEG_INFINITY => 12,
        f64::INFINITY => 11,
        _ if rate.to_bits() == 0 => 0,
        _ if rate == 0.0 => 3,
        _ if rate < 0.0 && rate.is_subnormal() => 16,
        _ if rate < 0.0 => 4,
        _ if rate.is_subnormal() => 5,
        4.0 => 2,
        _ if is_rate(rate) => 1,
        _ if is_rate(rate.next_down()) => 6,
        _ if is_rate(rate.next_up()) => 7,
        _ if rate * 256.0 == 1_025.0 => 9,
        _ if rate < 4.0 => 8,
        _ => 10,
    }
}

/// A rate of a kind; NaNs with any payload.
fn rate(rng: &mut Rng, kind: usize) -> f64 {
    let whole = match rng.below(4) {
        0 => rng.pick(&[1, 2, 255, 256, 257, 1_022, 1_023]),
        _ => rng.range(1, 1_023),
    };
    let rate = whole as f64 / 256.0;
    let payload = match rng.chance(1, 2) {
        true => 1,
        false => rng.range(1, (1 << 51) - 1),
    };
    let quiet = 0x7ff8 << 48;
    match kind {
        0 => 0.0,
        1 => rate,
        2 => 4.0,
        3 => -0.0,
        4 => rng.pick(&[
            -rate,
            -rate,
            -rate.next_up(),
            -4.0,
            -f64::MIN_POSITIVE,
            f64::MIN,
        ]),
        5 => f64::from_bits(rng.range(1, (1 << 52) - 1)),
        6 => rng.pick(&[rate, 4.0]).next_up(),
        7 => rate.next_down(),
        8 => rng.pick(&[rate + 1.0 / 512.0, rate / 3.0, 0.1, f64::MIN_POSITIVE]),
        9 => 1_025.0 / 256.0,
        10 => rng.pick(&[1_026.0 / 256.0, 5.0, 256.0, 1_024.0, 1e300, f64::MAX]),
        11 => f64::INFINITY,
        12 => f64::NEG_INFINITY,
        13 => f64::from_bits(quiet | rng.pick(&[0, payload])),
        14 => f64::from_bits(0x7ff0 << 48 | payload),
        15 => f64::from_bits(0xfff0 << 48 | payload | rng.below(2) << 51),
        _ => -f64::from_bits(rng.range(1, (1 << 52) - 1)),
    }
}

const PLACES: [&str; 3] = ["last", "least", "greatest"];

fn place(record: &mut Throughput, at: usize) -> &mut f64 {
    match at {
        0 => &mut record.last,
        1 => &mut record.least,
        _ => &mut record.greatest,
    }
}

/// The record with one rate replaced by another of it, so that the two are in order.
fn without(record: &Throughput, at: usize) -> Throughput {
    let mut other = *record;
    *place(&mut other, at) = match at {
        0 => record.least,
        _ => record.last,
    };
    other
}

const ROUNDS: [&str; 6] = ["0", "1 to 253", "254", "255", "256", "more"];
const DELIVERIES: [&str; 5] = [
    "below 4 x rounds",
    "4 x rounds",
    "one above",
    "more",
    "above 1,024",
];
const COUNTS: [u32; 11] = [0, 1, 2, 3, 4, 5, 255, 256, 260, 1 << 16, u32::MAX];
const FLAGS: [u8; 4] = [0, 1, 2, 255];
const ORDERS: [&str; 2] = ["least above last", "last above greatest"];
const EARLY: [&str; 3] = ["greatest", "last and greatest", "all three"];
const CLOSES: [&str; 5] = [
    "first",
    "lowers the least",
    "raises the greatest",
    "neither",
    "with 1,024",
];
const WHOLE: [&str; 5] = [
    "rounds",
    "windows closed",
    "delivered in them",
    "sums taken",
    "sums above 4 (41)",
];

#[derive(Default)]
pub struct Counts {
    /// Sound records by the kind of each rate; from `BAD` on records that are
    /// 30 for that rate alone.
    rates: [[u64; RATES.len()]; 3],
    /// Where nothing else is wrong.
    rounds: [u64; ROUNDS.len()],
    deliveries: [u64; DELIVERIES.len()],
    /// On sound records, by the count, and one more for the counts above 4 on others.
    counts: [u64; COUNTS.len()],
    bad_counts: u64,
    /// Open rounds and closes, by the closed byte before.
    flags: [[u64; FLAGS.len()]; 2],
    /// Records that are 30 for their order alone.
    orders: [u64; ORDERS.len()],
    /// Records that are 30 for rates before the first close alone.
    early: [u64; EARLY.len()],
    closes: [u64; CLOSES.len()],
    /// Whole runs by the number of hoppers.
    runs: [u64; MAX_HOPPERS],
    whole: [u64; WHOLE.len()],
}

impl Counts {
    pub fn note(&mut self, record: &Throughput, count: u32, answer: &FeedAnswer) {
        let sound = is_sound(record);
        for (at, counts) in self.rates.iter_mut().enumerate() {
            let kind = kind(*place(&mut { *record }, at));
            let counted = match kind < BAD {
                true => sound,
                false => is_sound(&without(record, at)),
            };
            counts[kind] += u64::from(counted);
        }
        self.note_window(record);
        self.note_order(record);
        if !sound {
            self.bad_counts += u64::from(count > 4);
            return;
        }
        if let Some(at) = COUNTS.iter().position(|other| *other == count) {
            self.counts[at] += 1;
        }
        let closes = matches!(answer.fed, Ok(Fed::Closed { .. }));
        if let (Some(at), Ok(_)) = (FLAGS.iter().position(|at| *at == record.closed), answer.fed) {
            self.flags[usize::from(closes)][at] += 1;
        }
        if let Ok(Fed::Closed { rate }) = answer.fed {
            self.closes[match () {
                () if record.closed == 0 => 0,
                () if rate < record.least => 1,
                () if rate > record.greatest => 2,
                () => 3,
            }] += 1;
            self.closes[4] += u64::from(rate == 4.0);
        }
    }

    fn note_window(&mut self, record: &Throughput) {
        let (rounds, deliveries) = (record.rounds, u32::from(record.deliveries));
        let empty = Throughput {
            deliveries: 0,
            rounds: 0,
            ..*record
        };
        if !is_sound(&empty) {
            return;
        }
        let most = 4 * u32::from(rounds);
        if rounds >= WINDOW || deliveries <= most {
            self.rounds[match rounds {
                0 => 0,
                1..=253 => 1,
                254 => 2,
                255 => 3,
                256 => 4,
                _ => 5,
            }] += 1;
        }
        if rounds < WINDOW {
            self.deliveries[match deliveries {
                _ if deliveries < most => 0,
                _ if deliveries == most => 1,
                _ if deliveries == most + 1 => 2,
                _ if deliveries <= 1_024 => 3,
                _ => 4,
            }] += 1;
        }
    }

    fn note_order(&mut self, record: &Throughput) {
        let (last, least, greatest) = (record.last, record.least, record.greatest);
        let closed = Throughput {
            closed: 1,
            ..*record
        };
        if is_sound(&closed) && record.closed == 0 && greatest > 0.0 {
            self.early[usize::from(last > 0.0) + usize::from(least > 0.0)] += 1;
        }
        let pairs = [(least, last, 1), (last, greatest, 2)];
        for (count, (low, high, at)) in self.orders.iter_mut().zip(pairs) {
            let alone = is_rate(low) && is_rate(high) && is_sound(&without(record, at));
            *count += u64::from(low > high && alone);
        }
    }

    pub fn add(&mut self, more: &Counts) {
        let add = |counts: &mut [u64], more: &[u64]| {
            for (count, more) in counts.iter_mut().zip(more) {
                *count += more;
            }
        };
        for (counts, more) in self.rates.iter_mut().zip(&more.rates) {
            add(counts, more);
        }
        for (counts, more) in self.flags.iter_mut().zip(&more.flags) {
            add(counts, more);
        }
        add(&mut self.rounds, &more.rounds);
        add(&mut self.deliveries, &more.deliveries);
        add(&mut self.counts, &more.counts);
        self.bad_counts += more.bad_counts;
        add(&mut self.orders, &more.orders);
        add(&mut self.early, &more.early);
        add(&mut self.closes, &more.closes);
        add(&mut self.runs, &more.runs);
        add(&mut self.whole, &more.whole);
    }

    /// Lines of counts, each with its name.
    pub fn lines(&self) -> Vec<(String, Vec<(String, u64)>)> {
        let mut lines = Vec::new();
        for (name, counts) in PLACES.iter().zip(&self.rates) {
            lines.push(line(&format!("{name} rate:"), &RATES, counts));
        }
        lines.push(line("rounds of a window:", &ROUNDS, &self.rounds));
        lines.push(line(
            "deliveries of a window:",
            &DELIVERIES,
            &self.deliveries,
        ));
        lines.push(line("counts on sound records:", &COUNTS, &self.counts));
        let above = [self.bad_counts];
        lines.push(line("counts on others:", &["above 4"], &above));
        for (name, counts) in ["open", "closing"].iter().zip(&self.flags) {
            lines.push(line(&format!("{name} rounds by flag:"), &FLAGS, counts));
        }
        lines.push(line("rates out of order:", &ORDERS, &self.orders));
        lines.push(line("before the first close:", &EARLY, &self.early));
        lines.push(line("closes:", &CLOSES, &self.closes));
        lines.push(line("runs by hoppers:", &[1, 2, 3, 4], &self.runs));
        lines.push(line("in these:", &WHOLE, &self.whole));
        lines
    }
}

fn line<T: ToString>(name: &str, names: &[T], counts: &[u64]) -> (String, Vec<(String, u64)>) {
    let cells = names.iter().map(T::to_string).zip(counts.iter().copied());
    (name.to_string(), cells.collect())
}

/// A record and a count, each sound or not.
pub fn any_feed(rng: &mut Rng) -> (Throughput, u32) {
    let mut record = sound_record(rng);
    if rng.chance(1, 2) {
        for _ in 0..rng.pick(&[1, 1, 1, 2]) {
            spoil(rng, &mut record);
        }
    }
    (record, any_count(rng))
}

pub fn any_count(rng: &mut Rng) -> u32 {
    match rng.below(8) {
        0 | 1 => rng.pick(&COUNTS),
        2 => rng.draw() as u32,
        _ => rng.below(5) as u32,
    }
}

/// A record that isn't 30.
fn sound_record(rng: &mut Rng) -> Throughput {
    let rounds = match rng.below(4) {
        0 => rng.pick(&[0, 1, 254]),
        1 | 2 => 255,
        _ => rng.below(256) as u16,
    };
    let deliveries = match rng.below(4) {
        0 => 0,
        1 => 4 * rounds,
        _ => rng.range(0, 4 * u64::from(rounds)) as u16,
    };
    let closed = match rng.below(6) {
        0 | 1 => 0,
        2 => rng.draw() as u8,
        _ => rng.pick(&[1, 2, 255]),
    };
    let mut rates = [0.0; 3];
    if closed != 0 {
        for at in &mut rates {
            let kind = rng.pick(&[0, 1, 1, 1, 1, 2]);
            *at = rate(rng, kind);
        }
        if rng.chance(1, 4) {
            rates = [rates[0]; 3];
        }
        rates.sort_by(f64::total_cmp);
    }
    let [least, last, greatest] = rates;
    Throughput {
        last,
        least,
        greatest,
        rounds,
        deliveries,
        closed,
    }
}

/// Changes one thing, mostly so that the record is 30.
fn spoil(rng: &mut Rng, record: &mut Throughput) {
    let most = 4 * record.rounds.min(255);
    match rng.below(10) {
        0 => record.rounds = rng.pick(&[256, 256, 257, 512, u16::MAX]),
        1 => record.deliveries = rng.pick(&[most + 1, most + 2, 1_025, u16::MAX]),
        2 => std::mem::swap(&mut record.least, &mut record.greatest),
        3 => {
            let whole = rate(rng, 1);
            *place(record, rng.below(3) as usize) = whole;
        }
        4 => {
            (record.closed, record.greatest) = (0, rate(rng, 1));
            record.last = rng.pick(&[0.0, record.greatest]);
            record.least = rng.pick(&[0.0, record.last]);
        }
        _ => {
            let kind = rng.range(BAD as u64, RATES.len() as u64 - 1) as usize;
            *place(record, rng.below(3) as usize) = rate(rng, kind);
        }
    }
}

/// Plainer feeds to try in place of one; none of them leads back.
pub fn smaller(record: &Throughput, count: u32) -> Vec<Call> {
    let mut tries = Vec::new();
    let mut with = |change: &dyn Fn(&mut Throughput)| {
        let mut record = *record;
        change(&mut record);
        tries.push(Call::Feed { record, count });
    };
    for at in 0..3 {
        match kind(*place(&mut { *record }, at)) {
            0 => {}
            1 if *place(&mut { *record }, at) == 1.0 => with(&|record| *place(record, at) = 0.0),
            _ => {
                with(&|record| *place(record, at) = 0.0);
                with(&|record| *place(record, at) = 1.0);
            }
        }
    }
    for less in [0, 1, 256] {
        with(&|record| record.rounds = record.rounds.min(less));
    }
    with(&|record| record.deliveries = 0);
    with(&|record| record.deliveries = record.deliveries.min(4 * record.rounds.min(255) + 1));
    for less in [0, 1, 2] {
        with(&|record| record.closed = record.closed.min(less));
    }
    for less in [0, 4, 5, 256] {
        tries.push(Call::Feed {
            record: *record,
            count: less.min(count),
        });
    }
    tries
}

/// A record in words.
pub fn show(record: &Throughput, count: u32) -> String {
    let rate = |rate: f64| match is_rate(rate) {
        true => format!("{}/256", rate * 256.0),
        false => format!("{rate:?} ({:#x})", rate.to_bits()),
    };
    format!(
        "feed {count} to rounds {} deliveries {} closed {} last {} least {} greatest {}",
        record.rounds,
        record.deliveries,
        record.closed,
        rate(record.last),
        rate(record.least),
        rate(record.greatest)
    )
}

/// A booking of the next number on a fill tile, if there is one.
pub fn booking(rng: &mut Rng, floor: &Floor) -> Option<Call> {
    let settings = &floor.settings;
    let fill: Vec<usize> = (0..64).filter(|tile| settings.is_source(*tile)).collect();
    let (span, spacing) = (settings.span(), settings.spacing() as u16);
    let mut along = || match rng.below(3) {
        0 => rng.range(0, span.into()) as u16,
        _ => rng.range(0, (span / spacing).into()) as u16 * spacing,
    };
    let (a, b) = (along(), along());
    if fill.is_empty() {
        return None;
    }
    Some(Call::Book {
        tile: rng.pick(&fill) as u32,
        canister: Canister {
            number: floor.counters.last.saturating_add(1),
            a,
            b,
        },
    })
}

/// One record for each hopper of a running floor, and one for all of them.
pub struct Follow {
    began: [u32; MAX_HOPPERS],
    rounds: u64,
    hoppers: usize,
    /// The last is fed the sum over all hoppers, which may be above 4.
    records: Vec<Throughput>,
    windows: Vec<Vec<f64>>,
    /// Sums that were refused.
    refused: u64,
    taken: u64,
}

impl Follow {
    pub fn of(floor: &Floor) -> Follow {
        let hoppers = floor.settings.hopper_count();
        Follow {
            began: floor.counters.delivered,
            rounds: 0,
            hoppers,
            records: vec![Throughput::ZERO; hoppers + 1],
            windows: vec![Vec::new(); hoppers + 1],
            refused: 0,
            taken: 0,
        }
    }

    /// The feeds of a round: each record with its count.
    pub fn feeds(&self, report: &Report) -> Vec<(Throughput, u32)> {
        let mut counts: Vec<u32> = report.deliveries[..self.hoppers]
            .iter()
            .map(|delivery| delivery.count.into())
            .collect();
        counts.push(counts.iter().sum());
        self.records.iter().copied().zip(counts).collect()
    }

    /// Takes over the answer of a record's feed.
    pub fn note(&mut self, at: usize, count: u32, answer: &FeedAnswer) -> Result<(), Trouble> {
        let sum = at == self.hoppers;
        match answer.fed {
            Ok(Fed::Closed { rate }) => self.windows[at].push(rate),
            Ok(_) => {}
            Err(41) if sum && count > 4 => {}
            Err(refusal) => return broken(format!("a record of a floor gets {refusal}")),
        }
        if sum {
            self.refused += u64::from(answer.fed.is_err());
            self.taken += u64::from(answer.fed.is_ok());
        }
        self.records[at] = answer.throughput;
        self.rounds += u64::from(at == 0);
        Ok(())
    }

    /// The windows of each hopper, with the open one, hold what its delivered
    /// counter rose by, and the rates are those of the closed ones.
    pub fn check(&self, floor: &Floor) -> Result<(), Trouble> {
        for (rank, record) in self.records[..self.hoppers].iter().enumerate() {
            let windows = &self.windows[rank];
            let closed: f64 = windows.iter().map(|rate| rate * 256.0).sum();
            let rose = floor.counters.delivered[rank] - self.began[rank];
            if closed + f64::from(record.deliveries) != f64::from(rose) {
                return broken(format!(
                    "hopper {rank}: {rose} delivered, not {closed} + {record:?}"
                ));
            }
            let counted = (windows.len() as u64, u64::from(record.rounds));
            if counted != (self.rounds / 256, self.rounds % 256) {
                return broken(format!("{counted:?} of {} rounds", self.rounds));
            }
            let fold = |with: fn(f64, f64) -> f64| windows.iter().copied().reduce(with);
            let kept = [|_, last| last, f64::min, f64::max].map(fold);
            let told = [record.last, record.least, record.greatest];
            if kept.map(|rate| rate.unwrap_or(0.0)) != told {
                return broken(format!("{told:?} kept of {windows:?}"));
            }
        }
        Ok(())
    }

    /// Counts a run that was made to its end.
    pub fn tell(&self, counts: &mut Counts) {
        counts.runs[self.hoppers - 1] += 1;
        let windows = &self.windows[..self.hoppers];
        let closed: f64 = windows.iter().flatten().map(|rate| rate * 256.0).sum();
        let more = [
            self.rounds,
            windows.iter().map(|rates| rates.len() as u64).sum(),
            closed as u64,
            self.taken,
            self.refused,
        ];
        for (count, more) in counts.whole.iter_mut().zip(more) {
            *count += more;
        }
    }
}
