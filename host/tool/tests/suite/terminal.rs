//! At a terminal, which `script` of util-linux makes.

use std::io::{Read, Write};
use std::process::{Child, ChildStdin, Command, Stdio};
use std::sync::mpsc::{channel, Receiver};
use std::thread;
use std::time::Duration;

use crate::common::{Room, PAIR};

/// The program at a terminal.
struct Terminal {
    child: Child,
    keys: Option<ChildStdin>,
    shown: Receiver<Vec<u8>>,
    screen: String,
    _room: Room,
}

impl Terminal {
    fn new(setting: &str) -> Terminal {
        let room = Room::new();
        let program = env!("CARGO_BIN_EXE_ceromby");
        // exec: a shell that stays would get the Ctrl-C too, and dash then ends with 130
        let command =
            format!("exec env --default-signal=INT -u NO_COLOR TERM=xterm {setting} '{program}'");
        let mut child = Command::new("script")
            .args(["-q", "-e", "-c", &command, "/dev/null"])
            .current_dir(&room.0)
            .stdin(Stdio::piped())
            .stdout(Stdio::piped())
            .spawn()
            .expect("script of util-linux");
        let mut out = child.stdout.take().unwrap();
        let (sender, shown) = channel();
        thread::spawn(move || {
            let mut piece = [0; 4096];
            while let Ok(length @ 1..) = out.read(&mut piece) {
                if sender.send(piece[..length].to_vec()).is_err() {
                    break;
                }
            }
        });
        let keys = child.stdin.take();
        Terminal {
            child,
            keys,
            shown,
            screen: String::new(),
            _room: room,
        }
    }

    fn press(&mut self, keys: &str) {
        let to = self.keys.as_mut().unwrap();
        to.write_all(keys.as_bytes()).unwrap();
        to.flush().unwrap();
    }

    /// Waits until the text is shown, and gives all up to its end.
    fn await_text(&mut self, text: &str) -> String {
        loop {
            if let Some(at) = self.screen.find(text) {
                let rest = self.screen.split_off(at + text.len());
                return std::mem::replace(&mut self.screen, rest);
            }
            let piece = self.shown.recv_timeout(Duration::from_secs(60));
            let piece = piece.unwrap_or_else(|_| panic!("{text:?} isn't in {:?}", self.screen));
            self.screen += &String::from_utf8_lossy(&piece);
        }
    }

    fn status(mut self) -> Option<i32> {
        // script ends by itself when the program does
        let status = self.child.wait().unwrap().code();
        drop(self.keys.take());
        status
    }
}

#[test]
fn a_terminal_gets_a_greeting_a_prompt_and_colour() {
    let mut terminal = Terminal::new("");
    let begin = terminal.await_text("ceromby> ");
    assert!(begin.contains("ceromby: begin with fresh or load; help lists the calls, quit ends"));
    terminal.press(PAIR);
    terminal.await_text("fresh: 2 x 1 tiles, hopper 1");
    terminal.press("stop 1\n");
    terminal.await_text("\u{1b}[33mstop: refused 8: a hopper can't be stopped\u{1b}[0m");
    terminal.press("lift\n");
    terminal.await_text("\u{1b}[31mline 3: cannot read: lift");
    terminal.press("list\n");
    terminal.await_text("list 1> ");
    terminal.press("0 1 0 0\n");
    terminal.await_text("list 2> ");
    terminal.press("end\n");
    terminal.await_text("list 1: book: 1 at (0, 0) on tile 0");
    terminal.press("quit\n");
    assert_eq!(terminal.status(), Some(2));
}

#[test]
fn no_color_leaves_colour_out() {
    for setting in ["NO_COLOR=1", "TERM=dumb"] {
        let mut terminal = Terminal::new(setting);
        terminal.press("lift\nquit\n");
        let shown = terminal.await_text("lift is no call");
        assert!(shown.contains("ceromby> "), "{shown:?}");
        assert!(!shown.contains('\u{1b}'), "{shown:?}");
        assert_eq!(terminal.status(), Some(2));
    }
}

#[test]
fn ctrl_d_ends_it() {
    let mut terminal = Terminal::new("");
    terminal.await_text("ceromby> ");
    terminal.press("\u{4}");
    assert_eq!(terminal.status(), Some(0));
}

#[test]
fn ctrl_c_at_the_prompt_drops_what_was_typed_and_goes_on() {
    let mut terminal = Terminal::new("");
    terminal.await_text("ceromby> ");
    terminal.press("fresh 2 1");
    terminal.await_text("fresh 2 1");
    terminal.press("\u{3}");
    terminal.await_text("quit, or Ctrl-D, ends");
    terminal.await_text("ceromby> ");
    terminal.press("list\n");
    terminal.await_text("list 1> ");
    terminal.press("\u{3}");
    terminal.await_text("list: given up, nothing was sent");
    terminal.await_text("ceromby> ");
    terminal.press("barge\n");
    terminal.await_text("barge: floor 3: none");
    terminal.press("quit\n");
    assert_eq!(terminal.status(), Some(0));
}

/// The bar is shown while rounds take long; Ctrl-C ends them and nothing else.
#[test]
fn long_rounds_show_a_bar_and_end_by_ctrl_c() {
    let mut terminal = Terminal::new("");
    let barge: String = (0..4).map(|floor| format!("{PAIR}put {floor}\n")).collect();
    terminal.press(&format!("{barge}allowance 9\non 0 book 0 1\n"));
    terminal.await_text("on 0: book: 1 at (0, 0) on tile 0");
    // seconds; a bar comes after 0.3
    terminal.press("on 0 rounds 100000\n");
    terminal.await_text(" of 100000 rounds; Ctrl-C ends it");
    terminal.press("\u{3}");
    let shown = terminal.await_text(" done, interrupted, now at round ");
    assert!(
        shown.contains("\r\u{1b}[K"),
        "the bar is cleared: {shown:?}"
    );
    terminal.await_text("ceromby> ");
    terminal.press("on 0 until empty\n");
    terminal.await_text("the floor is empty");
    terminal.press("quit\n");
    assert_eq!(terminal.status(), Some(0));
}
