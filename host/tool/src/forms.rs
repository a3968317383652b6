//! The calls: how each is typed, and what it does.

/// A call as it is typed.
#[derive(PartialEq, Eq, Debug)]
pub struct Form {
    /// Its word, without `!`.
    pub word: &'static str,
    /// With its arguments.
    pub usage: &'static str,
    /// What it does, in a few words.
    pub short: &'static str,
    /// What else is to be known.
    pub more: &'static [&'static str],
}

/// The calls by subject.
pub const SUBJECTS: &[(&str, &[Form])] = &[
    ("the floor at hand", FLOOR),
    ("canisters", CANISTERS),
    ("tiles and layouts", TILES),
    ("rounds", ROUNDS),
    ("questions", QUESTIONS),
    ("a plan", PLAN),
    ("the barge", BARGE),
    ("a store, by ceromby --store FILE", STORE),
    ("other", OTHER),
];

/// Every call.
pub fn all() -> impl Iterator<Item = &'static Form> {
    SUBJECTS.iter().flat_map(|(_, forms)| forms.iter())
}

/// The call of a word, `!` or not.
pub fn of(word: &str) -> Option<&'static Form> {
    let word = word.strip_suffix('!').unwrap_or(word);
    all().find(|form| form.word == word)
}

const FLOOR: &[Form] = &[
    Form {
        word: "fresh",
        usage: "fresh W H HOPPERS FILL U l r v",
        short: "makes a floor",
        more: &[
            "W columns, H rows, 1 to 8 each; HOPPERS one to four tiles as 0,3",
            "FILL the fill tiles: all, none, or tiles as 0,2,3",
            "in mm: U side of a tile, l of a canister, r least gap, v travel in a round",
            "v below l; l + r below U; U - l divided by l + r, rounded down, at most 3",
            "fresh! also where the floor at hand holds canisters",
            "the standard floor is fresh 4 4 10 4 1000 250 50 200",
        ],
    },
    Form {
        word: "load",
        usage: "load FILE",
        short: "takes a floor from a file",
        more: &[
            "load! also where the floor at hand holds canisters",
            "an empty file gives the standard floor",
            "a name with blanks or # is quoted: \"floor 1.image\"",
        ],
    },
    Form {
        word: "save",
        usage: "save FILE",
        short: "keeps the floor in a file",
        more: &["the old file stays whole until the new one is"],
    },
    Form {
        word: "draw",
        usage: "draw FILE",
        short: "draws the floor, as SVG in a file",
        more: &["a browser shows it"],
    },
];

const CANISTERS: &[Form] = &[
    Form {
        word: "book",
        usage: "book TILE NUMBER [A B]",
        short: "adds a canister to a fill tile",
        more: &[
            "A mm east and B mm north of the tile's south-west corner",
            "without A B: at the free place with the lowest B, then the lowest A",
            "numbers rise: each is above the last booked",
        ],
    },
    Form {
        word: "list",
        usage: "list",
        short: "begins a list of bookings, sent by end",
        more: &["then TILE NUMBER A B on a line each, up to 64, then end"],
    },
];

const TILES: &[Form] = &[
    Form {
        word: "stop",
        usage: "stop TILE",
        short: "stops a tile",
        more: &["it keeps its canisters"],
    },
    Form {
        word: "repair",
        usage: "repair TILE",
        short: "sets a stopped tile running",
        more: &[],
    },
    Form {
        word: "keep",
        usage: "keep NAME",
        short: "keeps which tiles run under a name",
        more: &["NAME: 1 to 8 letters A to Z; up to eight names"],
    },
    Form {
        word: "recall",
        usage: "recall NAME",
        short: "stops and repairs tiles as kept",
        more: &[],
    },
    Form {
        word: "forget",
        usage: "forget NAME",
        short: "frees a name",
        more: &[],
    },
    Form {
        word: "layouts",
        usage: "layouts",
        short: "the names that are kept, with their tiles",
        more: &[],
    },
];

const ROUNDS: &[Form] = &[
    Form {
        word: "round",
        usage: "round",
        short: "one round",
        more: &[],
    },
    Form {
        word: "rounds",
        usage: "rounds N",
        short: "N rounds, at most 100000",
        more: &["shown are the rounds that deliver or close a window; Ctrl-C ends it"],
    },
    Form {
        word: "until",
        usage: "until empty",
        short: "rounds until nothing more can be delivered",
        more: &[
            "at most as many as bound says; Ctrl-C ends it",
            "then shows what is left, and why",
        ],
    },
];

const QUESTIONS: &[Form] = &[
    Form {
        word: "show",
        usage: "show",
        short: "counters, and the page",
        more: &[
            "the north row first; of each tile its canisters, arrow and distance",
            "XX stopped, - no arrow, -- no distance",
        ],
    },
    Form {
        word: "map",
        usage: "map",
        short: "the page, tile numbers beside it",
        more: &[
            "f a fill tile, H a hopper",
            "tile = column x H + row, from the south-west",
        ],
    },
    Form {
        word: "read",
        usage: "read TILE",
        short: "all that a tile has",
        more: &[],
    },
    Form {
        word: "where",
        usage: "where NUMBER",
        short: "a canister's tile and place, or its delivery",
        more: &["looks at the floor at hand and at those on the barge"],
    },
    Form {
        word: "why",
        usage: "why",
        short: "why tiles stood in the last round",
        more: &["of each tile that wasn't empty, that it moved or why it stood"],
    },
    Form {
        word: "settings",
        usage: "settings",
        short: "what the floor was made with",
        more: &[],
    },
    Form {
        word: "bound",
        usage: "bound",
        short: "rounds until all is delivered, at most",
        more: &["proved; it holds until the next booking, stop, repair or recall"],
    },
    Form {
        word: "throughput",
        usage: "throughput",
        short: "deliveries a round, at each hopper",
        more: &["of the windows of 256 rounds that closed, and of the open one"],
    },
];

const PLAN: &[Form] = &[
    Form {
        word: "entry",
        usage: "entry LABEL TILE [AFTER [AFTER]]",
        short: "adds a canister to be booked",
        more: &["LABEL 1 to 64; AFTER: lower labels that are delivered first"],
    },
    Form {
        word: "offer",
        usage: "offer",
        short: "the lowest label that may be booked now",
        more: &[],
    },
    Form {
        word: "release",
        usage: "release LABEL",
        short: "books a label",
        more: &["under the number after the last, as book TILE NUMBER does"],
    },
    Form {
        word: "entries",
        usage: "entries",
        short: "the plan",
        more: &[],
    },
    Form {
        word: "plan",
        usage: "plan",
        short: "begins the plan anew",
        more: &["so do fresh, load, put and take"],
    },
];

const BARGE: &[Form] = &[
    Form {
        word: "put",
        usage: "put FLOOR",
        short: "moves the floor to the barge, as floor 0 to 3",
        more: &["put! also where the barge has a floor with canisters there"],
    },
    Form {
        word: "take",
        usage: "take FLOOR",
        short: "moves it back",
        more: &["take! also where the floor at hand holds canisters"],
    },
    Form {
        word: "allowance",
        usage: "allowance N",
        short: "canisters that may be aboard, 1 to 4032",
        more: &[],
    },
    Form {
        word: "on",
        usage: "on FLOOR CALL",
        short: "a call on a floor of the barge",
        more: &[
            "CALL: book, stop, repair, round, rounds, until, show, map, read, where, why,",
            "settings, bound, throughput or layouts",
        ],
    },
    Form {
        word: "barge",
        usage: "barge",
        short: "its floors, allowance and total",
        more: &[],
    },
];

const STORE: &[Form] = &[
    Form {
        word: "history",
        usage: "history [N]",
        short: "the last N calls, 20 without N",
        more: &["with their times (UTC) and answers, refused ones too"],
    },
    Form {
        word: "delivered",
        usage: "delivered [N]",
        short: "the last N deliveries, 20 without N",
        more: &["a run begins with fresh or load"],
    },
    Form {
        word: "key",
        usage: "key KEY CALL",
        short: "a call that may be sent again",
        more: &[
            "KEY is a word of your own, another one for each call",
            "the same line again gives the same answer and changes nothing",
            "CALL: a call that changes a floor, the plan or the barge, or list",
        ],
    },
    Form {
        word: "trim",
        usage: "trim DAY",
        short: "removes the calls before a day, as 2026-11-18",
        more: &["from the history alone; those with a key stay"],
    },
];

const OTHER: &[Form] = &[
    Form {
        word: "help",
        usage: "help [CALL]",
        short: "this, or more about a call; also ?",
        more: &[],
    },
    Form {
        word: "quit",
        usage: "quit",
        short: "ends; also exit",
        more: &[],
    },
];
