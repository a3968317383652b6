//! The page of a list without a browser: its data, read again and applied step by
//! step, gives the floors that the library gives.

mod chance;
mod page;
mod program;
mod reference;

use ceromby_tool::line::{self, Command};
use ceromby_tool::replay::{list, Replay, WhatIf};

use crate::json::Value;
use page::{apply, data, expected, Places};
use reference::{units, Run};

/// A floor of 4 x 4, a stop that makes a detour, refusals, lines that can't be
/// read, a list, questions, and rounds until it is empty.
const DAY: &str = "\
# two fill tiles
fresh 4 4 10 0,4 1000 250 50 200
book 4 1
book 0 2
rounds 9
show
book 4 3 0 0
book 0 3
stop 10
lift 4
stop 5
rounds 8
list
4 9 0 0
4 9 10 0
0 11 0 600
end
repair 5
keep NETS
rounds 4
until empty
until empty
where 9
";

/// Two hoppers, a plan, windows that close, a floor saved and loaded again.
const TWO_HOPPERS: &str = "\
round
fresh 3 2 0,5 1,2,3 100 30 10 20
entry 1 2
entry 2 3 1
release 1
release 2
rounds 10
release 2
save floor.image
rounds 260
fresh 2 1 1 0 100 30 10 20
book 0 7
rounds 300
load floor.image
load! floor.image
rounds 5
stop 3
stop 1
rounds 12
recall NETS
";

/// Four floors on a barge, one of them taken and put back.
const BARGE: &str = "\
fresh 2 2 3 0 100 30 10 20
on 1 round
put 0
round
fresh 3 1 0 2 100 30 10 20
put 1
fresh 2 1 1 0 100 30 10 20
put 2
fresh 2 1 1 0 100 30 10 20
book 0 1
put 3
allowance 3
on 0 book 0 1
on 1 book 2 4
on 2 book 0 1
on 0 rounds 3
on 1 rounds 5
on 3 rounds 2
on 1 stop 1
take 3
on 0 round
rounds 2
put 3
on 3 until empty
on 0 until empty
barge
";

fn read(list: &[u8]) -> Vec<list::Line> {
    list::read(list).expect("a list in memory")
}

fn what_if(text: &str, at: usize) -> WhatIf {
    let Ok(Some(Command::Call(call))) = line::command(text.as_bytes(), false) else {
        panic!("{text} is no call");
    };
    let text = text.to_owned();
    WhatIf { text, call, at }
}

fn page(list: &str, what_ifs: &[WhatIf]) -> Value {
    let lines = read(list.as_bytes());
    let replay = Replay::record("day.txt", "ceromby replay day.txt", lines, what_ifs);
    data(&replay.expect("a page").html())
}

/// Applies all steps forwards and then backwards, and holds the floors after
/// each to those of the library.
fn hold(data: &Value, places: &Places, steps: &[Value], run: &Run) {
    assert_eq!(steps.len(), run.steps.len());
    let mut now = places.clone();
    let mut before = Vec::new();
    for (at, (step, wanted)) in steps.iter().zip(&run.steps).enumerate() {
        before.push(now.clone());
        apply(data, &mut now, step, true);
        assert_eq!(now, expected(&wanted.session), "after step {}", at + 1);
        assert_eq!(
            step.field("k").is_none(),
            wanted.accepted,
            "step {}: {step:?}",
            at + 1
        );
        assert!(
            !step.get("x").text().is_empty(),
            "step {} says nothing",
            at + 1
        );
        let gone = step.field("o").map_or(vec![], Value::numbers);
        let gone: Vec<(i64, i64)> = gone.chunks(5).map(|row| (row[0], row[4])).collect();
        assert_eq!(gone, wanted.delivered, "delivered in step {}", at + 1);
        let shown = page::shown(step);
        let any = now.iter().any(Option::is_some);
        assert!(
            now[shown].is_some() || !any,
            "step {} shows no floor",
            at + 1
        );
    }
    for (at, (step, wanted)) in steps.iter().zip(before).enumerate().rev() {
        apply(data, &mut now, step, false);
        assert_eq!(now, wanted, "back before step {}", at + 1);
    }
}

fn hold_list(list: &str, steps: usize) {
    let data = page(list, &[]);
    let mut run = Run::default();
    run.all(&units(list.as_bytes()));
    assert_eq!(run.steps.len(), steps);
    hold(&data, &Places::default(), data.get("steps").list(), &run);
}

#[test]
fn a_day() {
    hold_list(DAY, 47);
}

#[test]
fn two_hoppers_and_several_floors() {
    hold_list(TWO_HOPPERS, 601);
}

#[test]
fn a_barge() {
    hold_list(BARGE, 38);
}

/// Lists of calls by chance, most of them accepted.
#[test]
fn lists_by_chance() {
    for seed in 1..=40 {
        let list = chance::list(seed);
        let data = page(&list, &[]);
        let mut run = Run::default();
        run.all(&units(list.as_bytes()));
        hold(&data, &Places::default(), data.get("steps").list(), &run);
    }
}

/// A branch has the what-if's call and then the rest of the list, on the floors
/// that the list had there.
fn hold_branch(list: &str, what_if: WhatIf, rest: &str) -> Value {
    let data = page(list, std::slice::from_ref(&what_if));
    let mut without = Run::default();
    without.all(&units(list.as_bytes()));
    let mut with = without.fork(what_if.at);
    let begun = expected(&with.session);
    with.call(&what_if.call);
    with.all(&units(rest.as_bytes()));
    let [branch] = data.get("branches").list() else {
        panic!("one branch was asked for");
    };
    assert_eq!(branch.get("at").whole(), what_if.at as i64);
    assert_eq!(branch.get("text").text(), what_if.text);
    let steps = branch.get("steps").list();
    hold(&data, &begun, steps, &with);
    hold_pairs(&data, branch);
    branch.clone()
}

/// The pairs lead from the call to both ends, a step at a time on one side or
/// both, and what is beside each other is of one line.
fn hold_pairs(data: &Value, branch: &Value) {
    let (without, with) = (data.get("steps").list(), branch.get("steps").list());
    let pairs = branch.get("pairs").numbers();
    let pairs: Vec<(usize, usize)> = pairs
        .chunks(2)
        .map(|pair| (pair[0] as usize, pair[1] as usize))
        .collect();
    assert_eq!(pairs[0], (branch.get("at").whole() as usize, 1));
    assert_eq!(pairs.last(), Some(&(without.len(), with.len())));
    for pair in pairs.windows(2) {
        let (before, after) = (pair[0], pair[1]);
        let both = (after.0 - before.0, after.1 - before.1);
        assert!(
            [(1, 1), (0, 1), (1, 0)].contains(&both),
            "{before:?} to {after:?}"
        );
        if both == (1, 1) {
            let line = |steps: &[Value], made: usize| steps[made - 1].get("l").clone();
            assert_eq!(line(without, after.0), line(with, after.1));
        }
    }
}

fn says(branch: &Value) -> Vec<&str> {
    branch.get("says").list().iter().map(Value::text).collect()
}

const ROW: &str = "\
fresh 3 1 0 2 100 30 10 20
book 2 1
rounds 6
book 2 2
rounds 20
";

/// A stop on the only way: nothing is delivered any more.
#[test]
fn a_stop_that_cuts_off() {
    let branch = hold_branch(ROW, what_if("stop 1", 5), "rounds 3\nbook 2 2\nrounds 20\n");
    assert_eq!(
        says(&branch),
        [
            "Delivered after step 5: none; without the call: 2, the last in round 11.",
            "No way to a hopper right after the call: 1; before it: none.",
            "No way to a hopper at the end: 1, 2; without the call: none.",
        ]
    );
}

/// At the beginning, at the end, and where the call is refused.
#[test]
fn branches_at_the_ends() {
    let before = hold_branch(ROW, what_if("stop 1", 0), ROW);
    assert_eq!(says(&before).len(), 2);
    assert!(before.get("steps").list()[0].field("k").is_some());
    let steps = 1 + 1 + 6 + 1 + 20;
    let after = hold_branch(ROW, what_if("stop 1", steps), "");
    assert_eq!(after.get("pairs").numbers(), [steps as i64, 1]);
    let refused = hold_branch(ROW, what_if("repair 1", 2), "rounds 6\nbook 2 2\nrounds 20");
    assert!(refused.get("steps").list()[0].field("k").is_some());
}

/// A branch that takes longer until the floor is empty, and one that ends sooner:
/// one side waits for the other.
#[test]
fn branches_of_other_lengths() {
    let list = "fresh 3 2 5 1 100 30 10 20\nbook 1 1\nuntil empty\nbook 1 2\nround\n";
    let rest = "until empty\nbook 1 2\nround\n";
    let steps = |branch: &Value| branch.get("steps").list().len();
    let detour = hold_branch(list, what_if("stop 3", 2), rest);
    assert_eq!(steps(&detour), 1 + 13 + 2);
    let cut_off = hold_branch(list, what_if("stop 1", 2), rest);
    assert_eq!(steps(&cut_off), 1 + 1 + 2);
}

/// On a floor of the barge.
#[test]
fn a_branch_on_the_barge() {
    let at = 18;
    let (front, rest) = BARGE.split_at(BARGE.find("on 1 rounds").unwrap());
    let mut run = Run::default();
    run.all(&units(front.as_bytes()));
    assert_eq!(run.steps.len(), at);
    let branch = hold_branch(BARGE, what_if("on 1 stop 1", at), rest);
    assert_eq!(branch.get("steps").list()[0].get("v").whole(), 2);
    assert_eq!(
        says(&branch)[1],
        "No way to a hopper right after the call: 4 on floor 1; before it: none."
    );
}

/// Texts that try to end the data, to begin a script or to take a part's place
/// stay texts.
#[test]
fn a_hostile_list() {
    let hostile =
        "</script><script>alert(1)</script><!-- {{script}} {{data}} \\ \" ' & <b onload=x>";
    let list = format!(
        "{hostile}\nload \"{}\"\nfresh 2 1 1 0 100 30 10 20\n",
        hostile.replace('"', "")
    );
    let mut bytes = list.into_bytes();
    bytes.extend(b"book \xff\xfe\0\x1b[31m \xe2\x80\xa8\n");
    let replay = Replay::record(hostile, hostile, read(&bytes), &[]);
    let html = replay.expect("a page").html();
    let plain = Replay::record("x", "x", vec![], &[])
        .expect("a page")
        .html();
    for tag in ["<script", "</script", "<!--", "<b", "'use strict'"] {
        assert_eq!(
            html.matches(tag).count(),
            plain.matches(tag).count(),
            "{tag}"
        );
    }
    let data = data(&html);
    assert_eq!(data.get("name").text(), hostile);
    let lines = data.get("lines").list();
    assert_eq!(lines[0].list()[1].text(), hostile);
    assert_eq!(lines[3].list()[1].text(), "book ????[31m ?");
    let title = "&lt;/script&gt;&lt;script&gt;alert(1)&lt;/script&gt;&lt;!-- {{script}}";
    assert!(html.contains(&format!("<title>{title}")));
}

/// The policy lets just the page's own script run, and nothing is loaded.
#[test]
fn nothing_but_the_page() {
    let html = Replay::record("x", "x", read(DAY.as_bytes()), &[])
        .expect("a page")
        .html();
    let (_, rest) = html.rsplit_once("<script>").expect("the script");
    let (script, _) = rest.split_once("</script>").expect("its end");
    let hash = program::sha256_base64(script);
    let policy =
        format!("default-src 'none'; style-src 'unsafe-inline'; script-src 'sha256-{hash}'");
    assert!(
        html.contains(&policy),
        "SCRIPT_HASH in replay.rs has to be sha256-{hash}"
    );
    assert_eq!(html.matches("<script").count(), 2);
    for from_elsewhere in [
        "src=", "url(http", "@import", "fetch(", "href=\"h", "href=\"/",
    ] {
        assert!(!html.contains(from_elsewhere), "{from_elsewhere}");
    }
    // the name of SVG, which no browser fetches
    let names = html.matches("http").count();
    assert_eq!(
        names,
        html.matches("http-equiv").count() + html.matches("'http://www.w3.org/2000/svg'").count()
    );
}

/// The parts that the script looks for are in the page.
#[test]
fn parts_of_a_drawing() {
    let html = Replay::record("x", "x", read(DAY.as_bytes()), &[])
        .expect("a page")
        .html();
    let (_, parts) = html
        .split_once("<template id=\"parts\">")
        .expect("the parts");
    let (parts, _) = parts.split_once("</template>").expect("their end");
    for class in [
        "flow",
        "arrow",
        "turn",
        "hatch",
        "distance",
        "tile running",
        "tile stopped",
    ] {
        assert!(parts.contains(&format!("class=\"{class}")), "{class}");
    }
    assert_eq!(html.matches("<template id=\"scene-").count(), 1);
}

/// A full floor of 8 x 8 over 2,000 rounds, canisters booked again and again.
#[test]
fn two_thousand_rounds() {
    for travel in [20, 100, 219] {
        let list = chance::busy(travel);
        let replay = Replay::record("busy", "ceromby replay", read(list.as_bytes()), &[]);
        let html = replay.expect("a page").html();
        println!("travel {travel}: {} bytes", html.len());
        assert!(html.len() < 5_000_000, "{} bytes", html.len());
    }
}
