-- The store, version 1. Every row ends in a checksum over the others of its columns (src/rows.rs). Times are milliseconds
-- since 1970, UTC.
PRAGMA application_id = 1130721903; -- "Cero"
PRAGMA user_version = 1;

-- One row: what belongs to no floor, and what the history must add up to.
CREATE TABLE session (
    id INTEGER PRIMARY KEY CHECK (id = 1),
    plan BLOB NOT NULL,
    allowance INTEGER NOT NULL,
    runs INTEGER NOT NULL,        -- how many fresh and load have begun
    calls INTEGER NOT NULL,       -- the number of the last call
    kept INTEGER NOT NULL,        -- rows of call
    deliveries INTEGER NOT NULL,  -- rows of delivery
    history INTEGER NOT NULL,     -- sum of the checksums of these rows
    settled INTEGER NOT NULL,     -- writes that changed nothing else: see Store::settle
    checksum INTEGER NOT NULL     -- covers the checksums of the floors too
) STRICT;

-- The floors that there are.
CREATE TABLE floor (
    place INTEGER PRIMARY KEY,    -- 0 to 3 on the barge, 4 at hand
    run INTEGER NOT NULL,
    rounds INTEGER NOT NULL,
    image BLOB NOT NULL,
    throughput BLOB NOT NULL,
    report BLOB,                  -- of the last round
    checksum INTEGER NOT NULL
) STRICT;

-- Every call, accepted or not.
CREATE TABLE call (
    sequence INTEGER PRIMARY KEY, -- 1, 2, 3 and so on
    time INTEGER NOT NULL,
    run INTEGER,                  -- of the floor that it was made on, if there was one
    floor INTEGER,                -- 0 to 3 on the barge, null for the floor at hand
    name TEXT NOT NULL,
    text TEXT NOT NULL,           -- as it was typed
    arguments TEXT NOT NULL,      -- JSON
    key TEXT UNIQUE,              -- the caller's own
    refusal INTEGER,              -- 0 accepted, else the papers' number; null if denied for another reason
    answer TEXT NOT NULL,         -- JSON: what it gave, or why nothing
    outcome BLOB NOT NULL,        -- the same with a round's whole report
    checksum INTEGER NOT NULL
) STRICT;

-- What rounds delivered; a number is delivered once in a run.
CREATE TABLE delivery (
    call INTEGER NOT NULL,
    hopper INTEGER NOT NULL,
    number INTEGER NOT NULL,
    run INTEGER NOT NULL,
    round INTEGER NOT NULL,
    checksum INTEGER NOT NULL,
    PRIMARY KEY (call, hopper, number),
    UNIQUE (run, number)
) STRICT, WITHOUT ROWID;

CREATE VIEW delivered AS
SELECT strftime('%Y-%m-%d %H:%M:%f', call.time / 1000.0, 'unixepoch') AS time,
    delivery.number, delivery.hopper, delivery.run, delivery.round, call.floor, delivery.call
FROM delivery JOIN call ON call.sequence = delivery.call;
