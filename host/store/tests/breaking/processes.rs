//! Two programs on one store, with calls of their own, and with the same keyed
//! calls twice and three times.

use std::collections::BTreeMap;
use std::path::Path;
use std::process::Stdio;
use std::time::Instant;

use ceromby_session::{json, Session};
use ceromby_store::{Options, Record, Store};

use crate::children::command;
use crate::support::{account, call, text, Folder};

/// What a program was answered, in its order: index, number in the store, JSON.
type Answers = Vec<(u64, u64, String)>;

/// Two programs side by side; what each was answered.
fn both(path: &Path, calls: u64, times: [u64; 2]) -> Result<[Answers; 2], String> {
    let path = path.to_str().ok_or("a path that is text")?;
    let start = |who: &str, times: u64| {
        let (calls, times) = (calls.to_string(), times.to_string());
        let mut command = command(&["child", "several", path, who, &calls, &times]);
        let child = command.stdout(Stdio::piped()).spawn();
        // read beside the other, so that neither waits for a reader
        child.map(|child| std::thread::spawn(|| child.wait_with_output()))
    };
    let first = start("first", times[0]).map_err(|error| error.to_string())?;
    let second = start("second", times[1]).map_err(|error| error.to_string())?;
    let mut answers = [vec![], vec![]];
    for (child, answers) in [first, second].into_iter().zip(&mut answers) {
        let ended = child.join().map_err(|_| "a panic")?;
        let output = ended.map_err(|error| error.to_string())?;
        if !output.status.success() {
            return Err("a program failed".to_owned());
        }
        for line in String::from_utf8_lossy(&output.stdout).lines() {
            let mut words = line.splitn(3, ' ');
            let mut next = || words.next().unwrap_or_default();
            let (index, sequence) = (next().parse(), next().parse());
            let numbers = index
                .ok()
                .zip(sequence.ok())
                .ok_or("a line without numbers")?;
            answers.push((numbers.0, numbers.1, next().to_owned()));
        }
    }
    Ok(answers)
}

fn answer(record: &Record) -> String {
    match &record.result {
        Ok(answer) => json::answer(answer).to_string(),
        Err(denial) => json::denial(denial).to_string(),
    }
}

/// The recorded calls, in their order on a session in memory, give the recorded
/// answers and the store's session.
fn replay(store: &mut Store, index_of: impl Fn(&Record) -> Option<u64>) -> Result<(), String> {
    let mut session = Session::new();
    for record in store.history(..).map_err(text)? {
        let index = index_of(&record).ok_or("a call of nobody")?;
        if session.call(&call(7, index)) != record.result {
            return Err(format!("another answer to call {}", record.sequence));
        }
    }
    match session == store.session().map_err(text)? {
        true => account(store),
        false => Err("another session".to_owned()),
    }
}

/// Calls of their own.
fn own(calls: u64, folder: &Folder) -> Result<(), String> {
    let path = folder.file("own");
    let mut store = Options::new().create(&path).map_err(text)?;
    let begun = Instant::now();
    let answers = both(&path, calls, [0, 0])?;
    let seconds = begun.elapsed().as_secs_f64();
    let records = store.history(..).map_err(text)?;
    if records.len() as u64 != 2 * calls {
        return Err(format!("{} calls in place of {}", records.len(), 2 * calls));
    }
    let mut turns = 0;
    for pair in records.windows(2) {
        turns += u64::from(pair[0].text.split(' ').next() != pair[1].text.split(' ').next());
    }
    for (who, answers) in ["first", "second"].iter().zip(&answers) {
        for (index, (asked, sequence, given)) in (0..).zip(answers) {
            let record = &records[*sequence as usize - 1];
            let own = record.text == format!("{who} {index}");
            if *asked != index || !own || answer(record) != *given {
                return Err(format!("the {who}'s call {index} was {record:?}"));
            }
        }
    }
    if turns < calls / 10 {
        return Err(format!("they took {turns} turns alone"));
    }
    replay(&mut store, |record| {
        record.text.split(' ').next_back()?.parse().ok()
    })?;
    let rate = 2.0 * calls as f64 / seconds;
    println!("processes: 2 with {calls} calls each, in {turns} turns, {rate:.0} a second; none lost, none twice");
    Ok(())
}

/// The same keyed calls, so many times each.
fn keyed(calls: u64, times: [u64; 2], folder: &Folder) -> Result<(), String> {
    let path = folder.file(&format!("keyed-{}-{}", times[0], times[1]));
    let mut store = Options::new().create(&path).map_err(text)?;
    let answers = both(&path, calls, times)?;
    let records = store.history(..).map_err(text)?;
    if records.len() as u64 != calls {
        return Err(format!("{} calls in place of {calls}", records.len()));
    }
    let by_key: BTreeMap<_, _> = records
        .iter()
        .map(|record| (&record.text, record))
        .collect();
    let mut given = 0;
    for (index, sequence, answered) in answers.iter().flatten() {
        let record = by_key
            .get(&index.to_string())
            .ok_or("a call that isn't recorded")?;
        if record.sequence != *sequence || answer(record) != *answered {
            return Err(format!(
                "key {index} was answered {answered}, and is {record:?}"
            ));
        }
        given += 1;
    }
    if given != calls * (times[0] + times[1]) {
        return Err(format!("{given} answers"));
    }
    replay(&mut store, |record| record.text.parse().ok())?;
    println!(
        "processes: {calls} keyed calls sent {} and {} times by 2, {given} answers; each made once",
        times[0], times[1]
    );
    Ok(())
}

pub fn run(calls: u64, folder: &Folder) -> Result<(), String> {
    own(calls, folder)?;
    keyed(calls, [1, 1], folder)?;
    keyed(calls, [2, 3], folder)
}
