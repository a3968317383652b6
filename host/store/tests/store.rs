//! What a program sees of a store: calls, keys, history, locks, and the files that
//! it refuses.

mod support;

use std::fs;
use std::path::Path;
use std::time::{Duration, SystemTime};

use ceromby::Refusal;
use ceromby_session::{json, Answer, Call, Denial};
use ceromby_store::sqlite::{Connection, Missing, Value};
use ceromby_store::{Options, Store, StoreError};

use support::{account, call, fresh, journal, key, put, send, Folder, Mirror, PAIR};

/// Another connection to the same file, as a crew's own program has.
fn connect(path: &Path) -> Connection {
    Connection::open(path, Missing::Refused).unwrap()
}

/// All rows of a query, as text.
fn query(path: &Path, sql: &str) -> Vec<String> {
    let db = connect(path);
    let mut statement = db.prepare(sql).unwrap();
    let mut rows = statement.rows(&[]).unwrap();
    let mut lines = vec![];
    while let Some(row) = rows.step().unwrap() {
        let words = row.values().unwrap().into_iter().map(|value| match value {
            Value::Null => "null".to_owned(),
            Value::Integer(number) => number.to_string(),
            Value::Text(text) => text.to_owned(),
            Value::Blob(bytes) => json::hex(bytes),
        });
        lines.push(words.collect::<Vec<_>>().join("|"));
    }
    lines
}

/// A store with a stream of calls, and its file.
fn filled(folder: &Folder, calls: u64) -> (Store, std::path::PathBuf) {
    let path = folder.file("store");
    let mut store = Options::new().unsynced().create(&path).unwrap();
    for index in 0..calls {
        send(&mut store, 1, index).unwrap().ok();
    }
    (store, path)
}

fn must_fail<T>(result: Result<T, StoreError>) -> StoreError {
    result.err().expect("it was taken")
}

/// Thousands of calls of every sort give what a session in memory gives, whether
/// the store is opened anew or stays open, and all that was booked is accounted for.
#[test]
fn as_in_memory() {
    let folder = Folder::new();
    let path = folder.file("store");
    let open = Options::new().unsynced();
    let mut store = open.create(&path).unwrap();
    let mut mirror = Mirror::new(1);
    let mut kinds = std::collections::BTreeSet::new();
    for index in 0..3000 {
        let result = send(&mut store, 1, index).unwrap();
        kinds.insert((call(1, index).name(), result.is_ok()));
        if index % 100 == 0 {
            store = open.open(&path).unwrap();
        }
        if index % 10 == 0 {
            mirror.follow(&mut store).unwrap();
        }
    }
    mirror.follow(&mut store).unwrap();
    account(&mut store).unwrap();
    // every word was accepted at times, and all that can be denied was denied at times
    let words = [
        "fresh",
        "load",
        "book",
        "list",
        "stop",
        "repair",
        "keep",
        "recall",
        "forget",
        "round",
        "plan",
        "entry",
        "release",
        "put",
        "take",
        "allowance",
    ];
    for word in words {
        assert!(kinds.contains(&(word, true)), "{word} was never accepted");
    }
    for word in [
        "fresh", "book", "list", "stop", "repair", "keep", "release", "round",
    ] {
        assert!(kinds.contains(&(word, false)), "{word} was never denied");
    }
    let delivered = store.delivered(..).unwrap().len();
    assert!(delivered > 150, "{delivered} deliveries");
}

/// The columns that a crew reads, and the view.
#[test]
fn by_plain_sql() {
    let folder = Folder::new();
    let path = folder.file("store");
    let mut store = Options::new().unsynced().create(&path).unwrap();
    let mut make = |call: Call, key| store.call(&call, key, &call.to_string()).unwrap();
    make(Call::Round, None);
    make(fresh(PAIR, false), None);
    make(Call::BookAnywhere { tile: 0, number: 7 }, Some("k"));
    make(Call::Stop(1), None);
    for _ in 0..3 {
        make(Call::Round, None);
    }
    let calls =
        "SELECT sequence, run, floor, name, text, arguments, key, refusal, answer FROM call";
    assert_eq!(
        query(&path, calls)[..5],
        [
            r#"1|null|null|round|round|{}|null|null|{"refusal":null,"text":"there is no floor; begin with fresh, load or take"}"#,
            r#"2|1|null|fresh|fresh 2 1 1 0 100 30 10 29|{"columns":2,"rows":1,"hoppers":[1],"sources":[0],"width":100,"length":30,"gap":10,"travel":29,"give_up":false}|null|0|{"columns":2,"rows":1,"hoppers":[1],"sources":[0],"width":100,"length":30,"gap":10,"travel":29,"plan_ended":false}"#,
            r#"3|1|null|book|book 0 7|{"tile":0,"number":7}|k|0|{"tile":0,"number":7,"a":0,"b":0}"#,
            r#"4|1|null|stop|stop 1|{"tile":1}|null|8|{"refusal":8,"text":"refused 8: stop of the hopper"}"#,
            r#"5|1|null|round|round|{}|null|0|{"round":1,"deliveries":[{"hopper":1,"numbers":[]}],"closed":[],"labels":[]}"#,
        ]
    );
    let delivered = "SELECT number, hopper, run, round, floor, call FROM delivered";
    assert_eq!(query(&path, delivered), ["7|1|1|3|null|7"]);
    let today = "SELECT count(*) FROM delivered WHERE time BETWEEN datetime('now', '-1 day') AND datetime('now', '+1 day')";
    assert_eq!(query(&path, today), ["1"]);
}

/// The recorded JSON is that of the recorded answer.
#[test]
fn json_and_answer_agree() {
    let folder = Folder::new();
    let (mut store, path) = filled(&folder, 600);
    let texts = query(&path, "SELECT answer FROM call ORDER BY sequence");
    let records = store.history(..).unwrap();
    assert_eq!(texts.len(), 600);
    for (text, record) in texts.iter().zip(records) {
        let json = match &record.result {
            Ok(answer) => json::answer(answer),
            Err(denial) => json::denial(denial),
        };
        assert_eq!(*text, json.to_string());
    }
}

/// A denied call is recorded and changes nothing else.
#[test]
fn denied() {
    let folder = Folder::new();
    let (mut store, path) = filled(&folder, 200);
    let rows = "SELECT * FROM floor";
    let before = (
        store.session().unwrap(),
        query(&path, rows),
        store.calls().unwrap(),
    );
    let denied = [
        (put(9), Denial::Refused(Refusal::NoFloor)),
        (Call::Stop(200), Denial::Refused(Refusal::NoTile)),
        (Call::Release(77), Denial::Refused(Refusal::NotReleased)),
    ];
    for (call, denial) in denied {
        let outcome = store.call(&call, None, "").unwrap();
        assert_eq!(outcome.result, Err(denial));
    }
    assert_eq!(store.session().unwrap(), before.0);
    assert_eq!(query(&path, rows), before.1);
    assert_eq!(store.calls().unwrap(), before.2 + 3);
}

/// The same key again gives the same answer, accepted or denied, and changes
/// nothing; with another call it is an error.
#[test]
fn keys() {
    let folder = Folder::new();
    let path = folder.file("store");
    let mut store = Options::new().unsynced().create(&path).unwrap();
    store.call(&fresh(PAIR, false), Some("begin"), "").unwrap();
    let book = Call::BookAnywhere { tile: 0, number: 5 };
    let booked = store.call(&book, Some("a"), "first").unwrap();
    let round = store.call(&Call::Round, Some("r"), "").unwrap();
    let denied = store.call(&Call::Stop(1), Some("s"), "").unwrap();
    assert!(booked.result.is_ok() && denied.result.is_err() && !booked.repeated);
    let (session, calls) = (store.session().unwrap(), store.calls().unwrap());
    for _ in 0..2 {
        for (call, key, first) in [
            (&book, "a", &booked),
            (&Call::Round, "r", &round),
            (&Call::Stop(1), "s", &denied),
        ] {
            let again = store.call(call, Some(key), "typed otherwise").unwrap();
            assert!(again.repeated);
            assert_eq!((again.sequence, again.time), (first.sequence, first.time));
            assert_eq!(again.result, first.result);
        }
        store = Options::new().unsynced().open(&path).unwrap();
    }
    let other = Call::BookAnywhere { tile: 0, number: 6 };
    for call in [&other, &Call::Round] {
        let error = must_fail(store.call(call, Some("a"), ""));
        assert_eq!(error, StoreError::KeyUsed(2));
    }
    for key in ["", &"k".repeat(256)] {
        let error = must_fail(store.call(&other, Some(key), ""));
        assert_eq!(error, StoreError::BadKey);
    }
    assert_eq!(
        (store.session().unwrap(), store.calls().unwrap()),
        (session, calls)
    );
    store.call(&other, Some(&"k".repeat(255)), "").unwrap();
    assert_eq!(store.calls().unwrap(), calls + 1);
}

/// Trimming takes calls and deliveries before a time, keeps those with a key, and
/// leaves the floors.
#[test]
fn trimming() {
    let folder = Folder::new();
    let (mut store, path) = filled(&folder, 400);
    let session = store.session().unwrap();
    let kept: Vec<_> = store.history(..).unwrap();
    let kept: Vec<_> = kept
        .into_iter()
        .filter(|record| record.key.is_some())
        .collect();
    let early = store.trim(SystemTime::UNIX_EPOCH).unwrap();
    assert_eq!((early.calls, early.deliveries), (0, 0));
    let all = store.delivered(..).unwrap();
    let future = SystemTime::now() + Duration::from_secs(1);
    let gone = store.trim(future).unwrap();
    assert_eq!(gone.calls, 400 - kept.len() as u64);
    assert_eq!(store.history(..).unwrap(), kept);
    let left = store.delivered(..).unwrap();
    assert_eq!(gone.deliveries + left.len() as u64, all.len() as u64);
    assert!(gone.deliveries > 0 && !left.is_empty());
    let of_kept = |call| kept.iter().any(|record| record.sequence == call);
    assert!(left.iter().all(|delivery| of_kept(delivery.call)));

    drop(store);
    let length = || fs::metadata(&path).unwrap().len();
    let before = length();
    connect(&path).execute("VACUUM").unwrap();
    assert!(length() < before);
    let mut store = Options::new().unsynced().open(&path).unwrap();
    assert_eq!(
        (store.session().unwrap(), store.calls().unwrap()),
        (session, 400)
    );
    let keyed = kept.last().unwrap();
    let asked = call(1, keyed.sequence - 1);
    let again = store.call(&asked, keyed.key.as_deref(), "").unwrap();
    assert_eq!((again.repeated, again.result), (true, keyed.result.clone()));
    assert!(send(&mut store, 1, 400).is_ok());
    assert_eq!(key(1, 400), Some("1 400".to_owned()));
}

/// While another program has the lock, a call waits; after the stated time it is
/// an error and no call. So it is where another one is reading.
#[test]
fn locked() {
    let folder = Folder::new();
    let (_, path) = filled(&folder, 20);
    let wait = Duration::from_millis(60);
    let mut store = Options::new()
        .unsynced()
        .lock_timeout(wait)
        .open(&path)
        .unwrap();
    let before = store.session().unwrap();
    let other = connect(&path);
    for held in [
        "BEGIN IMMEDIATE",
        "BEGIN EXCLUSIVE",
        "BEGIN; SELECT count(*) FROM call",
    ] {
        other.execute(held).unwrap();
        let begun = std::time::Instant::now();
        let error = must_fail(store.call(&Call::Round, Some("key"), ""));
        assert_eq!(error, StoreError::Busy(wait), "{held}");
        assert!(begun.elapsed() >= wait);
        other.execute("ROLLBACK").unwrap();
        assert_eq!(store.calls().unwrap(), 20, "{held}");
        assert_eq!(store.session().unwrap(), before, "{held}");
    }
    other.execute("BEGIN EXCLUSIVE").unwrap();
    assert_eq!(must_fail(store.session()), StoreError::Busy(wait));
    assert_eq!(
        must_fail(Options::new().lock_timeout(wait).open(&path)),
        StoreError::Busy(wait)
    );
    other.execute("ROLLBACK").unwrap();
    assert!(!store.call(&Call::Round, Some("key"), "").unwrap().repeated);
}

/// Files that are no store of this version are refused, and stay as they were.
#[test]
fn other_files() {
    let folder = Folder::new();
    let path = folder.file("other");
    let open = || must_fail(Store::open(&path));
    let create = || must_fail(Store::create(&path));

    assert!(matches!(open(), StoreError::NotOpened(_, why) if why.contains("No such file")));
    let nowhere = folder.file("none/store");
    let error = must_fail(Store::create(nowhere));
    assert!(matches!(error, StoreError::NotOpened(_, why) if why.contains("No such file")));
    fs::create_dir(&path).unwrap();
    assert!(matches!(open(), StoreError::NotOpened(_, why) if why.contains("directory")));
    fs::remove_dir(&path).unwrap();

    let refused = |bytes: &[u8]| {
        fs::write(&path, bytes).unwrap();
        let errors = (open(), create());
        assert_eq!(errors.0, StoreError::NotAStore(path.clone()));
        assert_eq!(errors.1, StoreError::Exists(path.clone()));
        assert_eq!(fs::read(&path).unwrap(), bytes);
        assert!(!journal(&path).exists());
    };
    refused(b"fresh 2 1 1 0 100 30 10 20\n");
    refused(&[0; 5000]);

    // an empty file is no store either, and becomes one
    fs::write(&path, b"").unwrap();
    assert_eq!(open(), StoreError::NotAStore(path.clone()));
    assert_eq!(fs::read(&path).unwrap(), b"");
    drop(Store::create(&path).unwrap());
    assert_eq!(create(), StoreError::Exists(path.clone()));

    let mut foreign = connect(&path);
    for (sql, expected) in [
        ("PRAGMA user_version = 2", StoreError::OtherVersion(2)),
        ("PRAGMA user_version = 0", StoreError::OtherVersion(0)),
        (
            "PRAGMA user_version = 1; PRAGMA application_id = 0",
            StoreError::NotAStore(path.clone()),
        ),
    ] {
        foreign.execute(sql).unwrap();
        let bytes = fs::read(&path).unwrap();
        assert_eq!(
            (open(), create()),
            (expected, StoreError::Exists(path.clone()))
        );
        assert_eq!(fs::read(&path).unwrap(), bytes);
        foreign = connect(&path);
    }
}

/// A file that SQLite doesn't write to, here for its format's number, is refused.
#[test]
fn read_only() {
    let folder = Folder::new();
    let (store, path) = filled(&folder, 20);
    drop(store);
    let mut bytes = fs::read(&path).unwrap();
    bytes[18] = 9;
    fs::write(&path, &bytes).unwrap();
    let why = "it can't be written to".to_owned();
    let expected = StoreError::NotOpened(path.clone(), why);
    assert_eq!(must_fail(Store::open(&path)), expected);
    assert_eq!(fs::read(&path).unwrap(), bytes);
}

/// What somebody changed in a store is found when it is opened, and named; nothing
/// is written.
#[test]
fn changed_by_hand() {
    let folder = Folder::new();
    let (store, path) = filled(&folder, 120);
    drop(store);
    let sound = fs::read(&path).unwrap();
    let floor = "floor 4 has a wrong checksum";
    let session = "session 1 has a wrong checksum";
    let history = "its history has";
    let tables = "its tables aren't those of a store";
    for (sql, what) in [
        (
            "UPDATE floor SET rounds = rounds + 1 WHERE place = 4",
            floor,
        ),
        ("UPDATE floor SET image = x'' WHERE place = 4", floor),
        ("DELETE FROM floor WHERE place = 4", session),
        (
            "UPDATE floor SET place = 5 WHERE place = 4",
            "floor 5 has a wrong checksum",
        ),
        ("UPDATE session SET allowance = 4000", session),
        ("UPDATE session SET plan = x'00'", session),
        ("DELETE FROM session", "the session's row is missing"),
        (
            "UPDATE call SET text = 'stop 3' WHERE sequence = 17",
            "call 17 has a wrong checksum",
        ),
        (
            "UPDATE call SET key = 'x' WHERE sequence = 17",
            "call 17 has a wrong checksum",
        ),
        ("DELETE FROM call WHERE sequence = 17", history),
        ("DELETE FROM call WHERE sequence = 120", history),
        (
            "DELETE FROM delivery WHERE call = (SELECT max(call) FROM delivery)",
            history,
        ),
        (
            "UPDATE delivery SET round = round + 1",
            "has a wrong checksum",
        ),
        ("CREATE INDEX mine ON call (time)", tables),
        ("DROP VIEW delivered", tables),
        (
            "CREATE TRIGGER t AFTER INSERT ON call BEGIN DELETE FROM floor; END",
            tables,
        ),
    ] {
        fs::write(&path, &sound).unwrap();
        connect(&path).execute(sql).unwrap();
        let changed = fs::read(&path).unwrap();
        match must_fail(Store::open(&path)) {
            StoreError::Damaged(found) => assert!(found.contains(what), "{sql}: {found}"),
            other => panic!("{sql}: {other}"),
        }
        assert_eq!(fs::read(&path).unwrap(), changed, "{sql}");
    }
    fs::write(&path, &sound).unwrap();
    let mut store = Store::open(&path).unwrap();
    Mirror::new(1).follow(&mut store).unwrap();
}

/// The same while a store is open: the next call is an error and writes nothing.
#[test]
fn changed_while_open() {
    let folder = Folder::new();
    for sql in [
        "UPDATE floor SET rounds = rounds + 1 WHERE place = 4",
        "DELETE FROM floor WHERE place = 0",
        "UPDATE session SET calls = calls - 1",
        "UPDATE call SET answer = '{}' WHERE key = '1 1'",
    ] {
        let (mut store, path) = filled(&folder, 120);
        connect(&path).execute(sql).unwrap();
        let changed = fs::read(&path).unwrap();
        let error = must_fail(store.call(&call(1, 1), Some("1 1"), ""));
        assert!(matches!(error, StoreError::Damaged(_)), "{sql}: {error}");
        drop(store);
        assert_eq!(fs::read(&path).unwrap(), changed, "{sql}");
        fs::remove_file(path).unwrap();
    }
}

/// A delivery by its number, and times as text.
#[test]
fn deliveries_and_times() {
    let folder = Folder::new();
    let (mut store, path) = filled(&folder, 400);
    let all = store.delivered(..).unwrap();
    for delivery in &all {
        let found = store.delivery(delivery.run, delivery.number).unwrap();
        assert_eq!(found, Some(*delivery));
        assert_eq!(
            store
                .delivery(delivery.run + 1000, delivery.number)
                .unwrap(),
            None
        );
    }
    assert!(all.iter().any(|delivery| delivery.floor.is_some()));
    let last = all.last().unwrap();
    let shown = query(
        &path,
        "SELECT substr(time, 1, 19) FROM delivered ORDER BY call DESC",
    );
    assert_eq!(store.readable(last.time).unwrap(), shown[0]);
    for (text, seconds) in [
        ("1970-01-02", 86_400),
        ("2026-11-18", 1_794_960_000),
        ("2026-11-18 06:30", 1_794_983_400),
    ] {
        let time = SystemTime::UNIX_EPOCH + Duration::from_secs(seconds);
        assert_eq!(store.moment(text).unwrap(), Some(time), "{text}");
        assert!(store.readable(time).unwrap().starts_with(text));
    }
    for text in ["", "now", "2026", "2026-13-01", "2026-02-30", "18.11.2026"] {
        assert_eq!(store.moment(text).unwrap(), None, "{text}");
    }
}

/// A move to the barge and back is one call each, and `fresh` and `load` begin runs.
#[test]
fn runs() {
    let folder = Folder::new();
    let mut store = Options::new()
        .unsynced()
        .create(folder.file("store"))
        .unwrap();
    let mut run = |call: Call| {
        let outcome = store.call(&call, None, "").unwrap();
        assert!(outcome.result.is_ok());
        store.history(outcome.sequence..).unwrap()[0].run
    };
    let image = vec![];
    assert_eq!(run(fresh(PAIR, false)), Some(1));
    assert_eq!(run(put(2)), Some(1));
    assert_eq!(run(Call::Allowance(3)), None);
    let load = Call::Load {
        image,
        give_up: false,
    };
    assert_eq!(run(load), Some(2));
    assert_eq!(run(Call::BookAnywhere { tile: 4, number: 1 }), Some(2));
    let take = Call::Take {
        floor: 2,
        give_up: true,
    };
    assert_eq!(run(take), Some(1));
    assert_eq!(run(Call::Round), Some(1));
    assert_eq!(run(fresh(PAIR, false)), Some(3));
}

/// What a crew reads.
#[test]
fn words() {
    let folder = Folder::new();
    let path = folder.file("store");
    let at = path.display();
    let missing = must_fail(Store::open(&path)).to_string();
    assert_eq!(
        missing,
        format!("{at} isn't opened: No such file or directory (os error 2)")
    );
    fs::write(&path, "text").unwrap();
    assert_eq!(
        must_fail(Store::open(&path)).to_string(),
        format!("{at} is no store")
    );
    assert_eq!(
        must_fail(Store::create(&path)).to_string(),
        format!("{at} is there already")
    );
    assert_eq!(
        StoreError::OtherVersion(7).to_string(),
        "the store has version 7, and this program knows 1 alone"
    );
    assert_eq!(
        StoreError::Busy(Duration::from_millis(1500)).to_string(),
        "another program has held the store for 1.5 s; no call was made"
    );
    assert_eq!(
        StoreError::KeyUsed(8).to_string(),
        "the key belongs to call 8, which is another one; no call was made"
    );
}

/// An answer that was given is the answer recorded, for every sort.
#[test]
fn answers_are_recorded() {
    let folder = Folder::new();
    let path = folder.file("store");
    let mut store = Options::new().unsynced().create(&path).unwrap();
    let mut sorts = std::collections::BTreeSet::new();
    for index in 0..1500 {
        let result = send(&mut store, 3, index).unwrap();
        if let Ok(answer) = &result {
            sorts.insert(
                format!("{answer:?}")
                    .split([' ', '('])
                    .next()
                    .unwrap()
                    .to_owned(),
            );
        }
        assert_eq!(store.history(index + 1..).unwrap()[0].result, result);
        if let Ok(Answer::Round(round)) = &result {
            assert!(round.report.reason(0).is_some());
        }
    }
    let all = [
        "Begun", "Booked", "Done", "Entered", "Listed", "Put", "Released", "Round",
    ];
    assert_eq!(sorts.into_iter().collect::<Vec<_>>(), all);
}
