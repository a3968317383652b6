//! Lines: how long, in what pieces, and what is said of those that can't be read.

use std::io::Write;
use std::thread::sleep;
use std::time::Duration;

use crate::common::{accepted, ceromby, last_line, program, started, Ran, Room, PAIR, PAIR_MADE};

fn long(byte: char) -> String {
    byte.to_string().repeat(200_000)
}

#[test]
fn eleven_thousand_rounds_are_each_answered() {
    let input = format!("{PAIR}{}show\n", "round\n".repeat(11_000));
    let mut expected = PAIR_MADE.to_owned();
    for round in 1..=11_000 {
        expected += &format!("round {round}: delivered none\n");
        if round % 256 == 0 {
            expected += &format!("round {round}: window closed, rate 0.00000000\n");
        }
    }
    expected += "show: last 0, booked 0, delivered 0, round 11000\n| 0 E  1| 0 -  0|\n";
    assert_eq!(accepted(&input), expected);
}

#[test]
fn a_line_of_200000_bytes_is_said_once() {
    let ran = ceromby(&[], format!("{PAIR}{}\nround\nlift\n", long('x')));
    let expected = "line 2: cannot read: over 400 bytes\n\
                    round 1: delivered none\n\
                    line 4: cannot read: lift: lift is no call, list is; \
                    expected: a call, as help lists them\n";
    assert_eq!(ran.out, format!("{PAIR_MADE}{expected}"));
    assert_eq!(ran.status, Some(2));
}

#[test]
fn a_remark_of_200001_bytes_is_passed_over() {
    let printed = accepted(&format!("{PAIR}#{}\nround\n", long('x')));
    assert_eq!(printed, format!("{PAIR_MADE}round 1: delivered none\n"));
}

#[test]
fn blanks_without_end_may_come_before_a_remark_and_not_before_a_call() {
    let blanks = long(' ');
    let input = format!("{PAIR}{blanks}#\n{blanks}round\n{blanks}\nround");
    let ran = ceromby(&[], input);
    let expected = "line 3: cannot read: over 400 bytes\nround 1: delivered none\n";
    assert_eq!(ran.out, format!("{PAIR_MADE}{expected}"));
    assert_eq!(ran.status, Some(2));
}

#[test]
fn the_longest_line_has_400_bytes() {
    let line = |blanks: usize| format!("{PAIR}round{}", " ".repeat(blanks));
    accepted(&line(395));
    assert_eq!(last_line(&line(396)), "line 2: cannot read: over 400 bytes");
}

#[test]
fn lines_may_come_in_pieces() {
    let room = Room::new();
    let (child, mut stdin) = started(program(&room.0));
    let piece = "x".repeat(300);
    let pieces = [
        "fre",
        "sh 2 1 1 all 100 30 10 20\nro",
        "und\n",
        &piece,
        &piece,
        "\nround\n",
    ];
    for piece in pieces {
        stdin.write_all(piece.as_bytes()).unwrap();
        sleep(Duration::from_millis(50));
    }
    drop(stdin);
    let ran = Ran::from(child.wait_with_output().unwrap());
    let expected = "round 1: delivered none\n\
                    line 3: cannot read: over 400 bytes\n\
                    round 2: delivered none\n";
    assert_eq!(ran.out, format!("{PAIR_MADE}{expected}"));
}

/// Each line with the word at fault and what was expected.
#[test]
fn an_unreadable_line_names_the_word_and_what_was_expected() {
    let book = "expected: book TILE NUMBER [A B]";
    let fresh = "expected: fresh W H HOPPERS FILL U l r v";
    let call = "expected: a call, as help lists them";
    let cases = [
        ("lift 4", format!("lift is no call, list is; {call}")),
        ("bok 0 1", format!("bok is no call, book is; {call}")),
        ("thro", format!("thro is no call, throughput is; {call}")),
        ("X", format!("X is no call; {call}")),
        ("LIFT", format!("LIFT is no call, list is; {call}")),
        ("stop! 3", format!("stop! is no call, stop is; {call}")),
        ("end", format!("end is no call; {call}")),
        ("help lift", format!("lift is no call, list is; {call}")),
        ("book 0 seven", format!("seven is no number; {book}")),
        ("book 0 -1", format!("-1 is no number; {book}")),
        ("book 0 4294967296", format!("4294967296 is above 4294967295; {book}")),
        ("book 0", format!("NUMBER is missing; {book}")),
        ("book 0 5 1", format!("B is missing; {book}")),
        ("book 0 5 1 2 3", format!("3 is a word too many; {book}")),
        ("fresh 2 1 1,x all 1 1 1 1", format!("1,x isn't tiles, 0 to 63, as 0,2,3; {fresh}")),
        ("fresh 2 1 64 all 1 1 1 1", format!("64 isn't tiles, 0 to 63, as 0,2,3; {fresh}")),
        ("fresh 2 1 1 some 1 1 1 1", format!("some isn't tiles, 0 to 63, as 0,2,3; {fresh}")),
        ("until full", "full can't come here; expected: until empty".to_owned()),
        ("until", "empty is missing; expected: until empty".to_owned()),
        ("on 0", "CALL is missing; expected: on FLOOR CALL".to_owned()),
        ("on 0 rounds", "N is missing; expected: rounds N".to_owned()),
        (
            "on 0 keep A",
            "keep can't come here; expected: on FLOOR, then book, stop, repair, round, rounds or a question"
                .to_owned(),
        ),
        (
            "save a b",
            "b is a word too many; expected: one FILE, quoted if it has blanks".to_owned(),
        ),
        ("save", "FILE is missing; expected: save FILE".to_owned()),
        (
            "save \"a b",
            "\"a b isn't quoted as \"NAME\"; expected: a name between two \" and a blank after it"
                .to_owned(),
        ),
        (
            "save \"a\"b",
            "\"a\"b isn't quoted as \"NAME\"; expected: a name between two \" and a blank after it"
                .to_owned(),
        ),
    ];
    for (line, why) in cases {
        let ran = ceromby(&[], line);
        assert_eq!(ran.out, format!("line 1: cannot read: {line}: {why}\n"));
        assert_eq!(ran.status, Some(2), "{line}");
    }
}

#[test]
fn bytes_that_are_not_printable_are_shown_as_question_marks() {
    // a bell and an escape are blanks, as all bytes up to the blank are
    let ran = ceromby(
        &[],
        b"r\x7f\xff\xc3\xa5\xe2\x80\xae\xc2\x9b \x07\x1b[31m".to_vec(),
    );
    let begin = "line 1: cannot read: r??å?? ??[31m: r??å?? is no call";
    assert!(ran.out.starts_with(begin), "{}", ran.out);
}

#[test]
fn capitals_remarks_and_quotation_marks_are_understood() {
    let input = "FRESH 2 1 1 ALL 100 30 10 20 # two tiles\n\
                 Book 0 5 # the first\n\
                 \tROUNDS 4\r\n\
                 save \"floor # 1.image\" # quoted\n\
                 \"load\" \"floor # 1.image\"\n\
                 ?\n\
                 exit\n\
                 this isn't read\n";
    let printed = accepted(input);
    assert!(printed.contains("book: 5 at (0, 0) on tile 0\nround 4: delivered 5\n"));
    assert!(printed.contains("save: 64 bytes in floor # 1.image\nload: 2 x 1 tiles, hopper 1\n"));
    assert!(printed.contains("help: "));
}

#[test]
fn names_of_layouts_are_not_changed_to_capitals() {
    let line = last_line(&format!("{PAIR}KEEP nets\n"));
    assert_eq!(
        line,
        "keep: refused 44: not a name of 1 to 8 letters A to Z: n isn't A to Z"
    );
}

#[test]
fn every_call_is_listed_by_help_and_explained() {
    let help = accepted("help\n");
    for form in ceromby_tool::forms::all() {
        assert!(
            help.contains(&format!("    {}", form.usage)),
            "{}",
            form.usage
        );
        let printed = accepted(&format!("help {}\n", form.word));
        assert!(printed.starts_with(&format!("help: {}: ", form.usage)));
    }
    let widest = help.lines().map(str::len).max();
    assert!(widest <= Some(84), "{widest:?}");
}

#[test]
fn a_byte_order_mark_before_the_first_line_is_passed_over() {
    let ran = ceromby(&[], format!("\u{feff}{PAIR}").as_str());
    assert_eq!((ran.out.as_str(), ran.status), (PAIR_MADE, Some(0)));
    let later = ceromby(&[], format!("{PAIR}\u{feff}round\n").as_str());
    assert_eq!(later.status, Some(2));
}
