/* The canister floor of a feed barge, for C and C++.

   Each call has two forms.

   In place, for programs: ceromby_book_in(&floor, tile, canister) changes the floor and gives the number of the refusal, 0
   for accepted. This form is recommended. A refused call gives back the floor that it was handed, so the memory and the
   answer are never apart; by value, a program that doesn't take the floor out of the answer has lost the call.

   By value, what the archive has: ceromby_book(floor, tile, canister) gives the floor after the call with the refusal, and
   leaves the one that was handed in. Neither form takes less stack than the other in one call.

   Nothing is kept between calls, nothing is allocated and no call waits: calls may run side by side in threads, each on
   memory of its own. Any bytes may stand in a struct: a floor that isn't well formed is refused by 30 (ceromby_book_list: in
   every entry).

   A refused call gives back the floor, throughput, plan or barge that was handed in (ceromby_fresh and ceromby_load: the
   all-zero floor, which is refused by 30 everywhere), zeros for everything else (a refused reading has distance 0, not
   255), and leaves the buffer or list.
   The numbers given at each call stand in the order in which they are tested.

   What the caller owes: a pointer to `length` bytes, or for ceromby_book_list to `length` entries, that stay valid and
   that nobody else writes during the call (any pointer but NULL where length is 0; in place, NULL too); for ceromby_write,
   ceromby_page and ceromby_book_list nobody else reads them either. And stack: CEROMBY_STACK.

   The archive is built for x86-64 Linux (the System V calling convention) and for no other platform; it needs memcpy and
   memset. */

#ifndef CEROMBY_H
#define CEROMBY_H

#include <stddef.h>
#include <stdint.h>

#define CEROMBY_VERSION_MAJOR 0
#define CEROMBY_VERSION_MINOR 1
#define CEROMBY_VERSION_PATCH 0

/* The header's version as one number: 100 for 0.1.0. ceromby_version() gives the archive's. */
#define CEROMBY_VERSION (CEROMBY_VERSION_MAJOR * 10000 + CEROMBY_VERSION_MINOR * 100 + CEROMBY_VERSION_PATCH)

/* Bytes of stack that one call may take, what its caller needs for arguments and answer included: on a lone floor, with or
   without a plan, and on a barge. Measured on the floors that need most, with gcc and clang, not proved; a test holds the
   figures. A floor takes 8,696 bytes, a barge 34,792; keep them in static or allocated memory where the stack is small.

   A function that makes several calls by value takes more: the compiler adds up the answers that it keeps, and may add up
   arguments too. Calls in place don't add up. */
#define CEROMBY_STACK 106496
#define CEROMBY_BARGE_STACK 231424

/* An answer that is dropped is a lost call: the compiler warns of it, where it can. */
#if defined(__cplusplus) && __cplusplus >= 201703L
#define CEROMBY_MUST_USE [[nodiscard]]
#elif defined(__STDC_VERSION__) && __STDC_VERSION__ >= 202311L
#define CEROMBY_MUST_USE [[nodiscard]]
#elif defined(__GNUC__)
#define CEROMBY_MUST_USE __attribute__((warn_unused_result))
#else
#define CEROMBY_MUST_USE
#endif

#ifdef __cplusplus
extern "C" {
#endif

/* Sides, as stored in ceromby_side.code. */
#define CEROMBY_SIDE_NONE 0
#define CEROMBY_SIDE_WEST 1
#define CEROMBY_SIDE_SOUTH 2
#define CEROMBY_SIDE_NORTH 3
#define CEROMBY_SIDE_EAST 4

#define CEROMBY_DISTANCE_NONE 255
#define CEROMBY_LONGEST_IMAGE 8908 /* with eight layouts and one hopper; the longest with more hoppers is shorter */

#define CEROMBY_LONGEST_PAGE 528 /* of 8 x 8 tiles */

#define CEROMBY_MAX_TILES 64
#define CEROMBY_MAX_HOPPERS 4
#define CEROMBY_PLACES 16 /* canister places of one tile */
#define CEROMBY_MAX_LAYOUTS 8
#define CEROMBY_LONGEST_LIST 64 /* bookings in one call */
#define CEROMBY_MAX_ENTRIES 64 /* of a plan */
#define CEROMBY_MAX_LABEL 64 /* of a plan's entry; the least is 1 */
#define CEROMBY_FLOORS 4 /* of a barge */
#define CEROMBY_MAX_ALLOWANCE 4032 /* of a barge; the least is 1 */

/* The set of one tile, 0 to 63: with one hopper, .hoppers = CEROMBY_TILE(5). Sets are joined by |. */
#define CEROMBY_TILE(t) (UINT64_C(1) << (t))

/* One of the eight letters of a ceromby_layout's name, 0 to 7; 0 after the last. */
#define CEROMBY_LETTER(layout, at) ((char)((layout).name >> (56 - 8 * (at)) & 255))

#define CEROMBY_WINDOW 256 /* rounds of a throughput's window */

/* ceromby_entry.stage. These bytes are written; any byte above 2 is read as booked. */
#define CEROMBY_STAGE_WAITING 0
#define CEROMBY_STAGE_BOOKED 1
#define CEROMBY_STAGE_DELIVERED 2

/* Why a tile stood in a round; the first that fits. */
#define CEROMBY_REASON_STOPPED 1
#define CEROMBY_REASON_EMPTY 2    /* when the round began; a hopper always is */
#define CEROMBY_REASON_NO_ARROW 3
#define CEROMBY_REASON_TURN 4     /* the turn of the tile ahead was another's, before it passed on */
#define CEROMBY_REASON_NO_GAP 5   /* on the tile ahead; ceromby_report.missing says how much is missing */
#define CEROMBY_REASON_MOVED 6    /* it didn't stand: its canisters shifted */

/* The refusals. ceromby_refusal_text, below, says in words what each means. */
#define CEROMBY_ACCEPTED 0

/* Because of the input. */
#define CEROMBY_GRID 1
#define CEROMBY_SETS 2
#define CEROMBY_MEASURE 3 /* the rules stand at ceromby_settings */
#define CEROMBY_NO_TILE 4
#define CEROMBY_NOT_A_SOURCE 5
#define CEROMBY_NUMBER_ZERO 6
#define CEROMBY_OUTSIDE 7
#define CEROMBY_STOP_OF_HOPPER 8
#define CEROMBY_IMAGE_ENDS 9 /* never for zero bytes, which load the standard floor */
#define CEROMBY_OTHER_KIND 10
#define CEROMBY_RECORD_SHAPE 11
#define CEROMBY_IMAGE_MALFORMED 12
#define CEROMBY_SHORT_BUFFER 13

/* Because of the state. */
#define CEROMBY_MALFORMED 30
#define CEROMBY_STOPPED 31
#define CEROMBY_RUNNING 32
#define CEROMBY_NUMBER_USED 33
#define CEROMBY_TOO_CLOSE 34 /* d = l + r */
#define CEROMBY_NO_PLACE 40 /* in a booking without one */

/* Because of a throughput's count, a list, a page's buffer. */
#define CEROMBY_COUNT_TOO_HIGH 41
#define CEROMBY_LIST_TOO_LONG 42
#define CEROMBY_SHORT_PAGE 43

/* Because of a layout's name. */
#define CEROMBY_BAD_NAME 44 /* not 1 to 8 letters A to Z, then zeros */
#define CEROMBY_NAME_NOT_HELD 45
#define CEROMBY_LAYOUTS_FULL 46

/* Because of a plan's labels. */
#define CEROMBY_BAD_LABEL 47
#define CEROMBY_NOT_RELEASED 48 /* also for a label that isn't in the plan */

/* Because of a barge. */
#define CEROMBY_NO_FLOOR 49
#define CEROMBY_OVERLOADED 50

/* A refusal in the papers' words, for a log or a display; "unknown" for a number that is none. */
static inline const char *ceromby_refusal_text(unsigned number) {
    switch (number) {
    case CEROMBY_ACCEPTED: return "accepted";
    case CEROMBY_GRID: return "W, H or C outside its range";
    case CEROMBY_SETS: return "hopper not on the floor, or a fill bit for the hopper or for no tile, or not one to four hoppers";
    case CEROMBY_MEASURE: return "a measure breaks the rules";
    case CEROMBY_NO_TILE: return "tile not on the floor";
    case CEROMBY_NOT_A_SOURCE: return "booking on a tile outside the fill set";
    case CEROMBY_NUMBER_ZERO: return "canister number 0";
    case CEROMBY_OUTSIDE: return "a or b above U - l";
    case CEROMBY_STOP_OF_HOPPER: return "stop of the hopper";
    case CEROMBY_IMAGE_ENDS: return "image ends within a record or with its end record missing, or has bytes after its end record";
    case CEROMBY_OTHER_KIND: return "record of another kind than the one due";
    case CEROMBY_RECORD_SHAPE: return "wrong record length, or a fixed byte wrong";
    case CEROMBY_IMAGE_MALFORMED: return "image complete, floor not well formed";
    case CEROMBY_SHORT_BUFFER: return "buffer shorter than the image to write";
    case CEROMBY_MALFORMED: return "the floor handed in isn't well formed, or the record, plan or barge isn't sound";
    case CEROMBY_STOPPED: return "booking on a stopped tile, or stop of a stopped one";
    case CEROMBY_RUNNING: return "repair of a running tile";
    case CEROMBY_NUMBER_USED: return "canister number not above the last booked";
    case CEROMBY_TOO_CLOSE: return "some canister of the tile differs by less than d in both a and b";
    case CEROMBY_NO_PLACE: return "no place on the tile";
    case CEROMBY_COUNT_TOO_HIGH: return "a count above 4";
    case CEROMBY_LIST_TOO_LONG: return "more than 64 entries";
    case CEROMBY_SHORT_PAGE: return "buffer shorter than the page";
    case CEROMBY_BAD_NAME: return "bad name";
    case CEROMBY_NAME_NOT_HELD: return "name not held";
    case CEROMBY_LAYOUTS_FULL: return "eight other names held";
    case CEROMBY_BAD_LABEL: return "an entry's label repeated or outside 1 to 64, or a predecessor absent or not lower";
    case CEROMBY_NOT_RELEASED: return "the label asked for not waiting or a predecessor undelivered";
    case CEROMBY_NO_FLOOR: return "floor number not 0 to 3";
    case CEROMBY_OVERLOADED: return "the total is at or above the allowance";
    default: return "unknown";
    }
}

typedef struct ceromby_canister {
    uint32_t number; /* never 0 on a floor */
    uint16_t a;      /* south-west corner, from the tile's; eastward */
    uint16_t b;      /* the same, northward */
} ceromby_canister;

/* An entry of a list of bookings. */
typedef struct ceromby_booking {
    uint32_t tile;
    ceromby_canister canister;
    uint8_t answer; /* what the single booking would answer, 0 for accepted; what stood here before doesn't matter */
} ceromby_booking;

typedef struct ceromby_side {
    uint8_t code;
} ceromby_side;

typedef struct ceromby_tile {
    uint8_t running;    /* 1 running, 0 stopped */
    uint8_t distance;   /* to the nearest hopper, 255 none */
    ceromby_side next;  /* the arrow */
    ceromby_side token; /* the turn */
    uint8_t count;      /* canisters on the tile */
} ceromby_tile;

/* W and H are 1 to 8, and W * H is at least 2. U is 2 to 60,000, v at least 1. Required: v < l, d = l + r < U, and
   (U - l) / d, rounded down, at most 3. One to four tiles of the floor are hoppers; all may be. A hopper runs always, has
   distance 0 and holds nothing. The fill set may be empty and never holds a hopper. */
typedef struct ceromby_settings {
    uint8_t columns;  /* W */
    uint8_t rows;     /* H */
    uint64_t hoppers; /* hopper set, bit t for tile t; tile number: column * H + row */
    uint64_t sources; /* fill set, in the same way */
    uint16_t width;   /* U, side of a tile */
    uint16_t length;  /* l, side of a canister */
    uint16_t gap;     /* r, least gap */
    uint16_t travel;  /* v, travel in a round */
} ceromby_settings;

/* Booked is the sum of delivered and those on the floor. The counter of the lowest hopper is delivered[0], that of the next
   in tile order delivered[1], and so on; those beyond the last hopper are zero. */
typedef struct ceromby_counters {
    uint32_t last; /* last number booked */
    uint32_t booked;
    uint32_t delivered[CEROMBY_MAX_HOPPERS];
} ceromby_counters;

/* A name for a layout: 1 to 8 letters A to Z, then zeros. Any bytes may stand here; what is no name is refused by 44. */
typedef struct ceromby_name {
    uint8_t letters[8];
} ceromby_name;

/* The name of a text, as "NETS"; in C++ too, where an array of eight can't be made from a literal of eight letters. Nothing
   is cut off: of a text that has more than eight bytes it is the empty name, which is refused by 44. */
static inline ceromby_name ceromby_name_of(const char *text) {
    ceromby_name name = {{0}};
    ceromby_name none = {{0}};
    size_t at;
    for (at = 0; at < sizeof name.letters && text[at] != 0; at++)
        name.letters[at] = (uint8_t)text[at];
    return text[at] == 0 ? name : none;
}

/* The tiles that ran when it was kept. */
typedef struct ceromby_layout {
    uint64_t name; /* the first letter in the highest byte, so that names rise as numbers do; "AB": 0x4142000000000000 */
    uint64_t set;  /* bit t for tile t; it holds every hopper */
} ceromby_layout;

/* Canisters of tile t are at places 16 t to 16 t + count - 1, by rising number.
   Layouts stand first to last by rising name, each name once. Unused places and tiles are zero. */
typedef struct ceromby_floor {
    ceromby_settings settings;
    ceromby_counters counters;
    ceromby_tile tiles[CEROMBY_MAX_TILES];
    ceromby_canister canisters[CEROMBY_MAX_TILES * CEROMBY_PLACES];
    ceromby_layout layouts[CEROMBY_MAX_LAYOUTS];
} ceromby_floor;

/* How many canisters are on a floor. */
static inline uint32_t ceromby_aboard(const ceromby_floor *floor) {
    uint32_t count = 0;
    size_t tile;
    for (tile = 0; tile < CEROMBY_MAX_TILES; tile++)
        count += floor->tiles[tile].count;
    return count;
}

/* What one hopper took in. */
typedef struct ceromby_delivery {
    uint32_t numbers[4]; /* rising, then zeros */
    uint8_t count;       /* how many */
} ceromby_delivery;

/* Deliveries stand in the order of ceromby_counters.delivered, then zeros. */
typedef struct ceromby_report {
    uint8_t grants[CEROMBY_MAX_TILES];   /* the side each tile granted, 0 for none and where no tile is */
    uint8_t reasons[CEROMBY_MAX_TILES];  /* why each tile stood, 1 to 6; 0 where no tile is */
    uint16_t missing[CEROMBY_MAX_TILES]; /* beside reason 5 the missing millimetres, the worst canister's; else 0 */
    ceromby_delivery deliveries[CEROMBY_MAX_HOPPERS];
} ceromby_report;

/* In every answer, refusal 0 means accepted. */
typedef struct ceromby_answer {
    ceromby_floor floor;
    uint8_t refusal;
} ceromby_answer;

typedef struct ceromby_placed {
    ceromby_floor floor;
    uint16_t a; /* the place that the canister took; where refused, (0, 0), which is a place too: look at the refusal */
    uint16_t b;
    uint8_t refusal;
} ceromby_placed;

typedef struct ceromby_rounded {
    ceromby_floor floor;
    ceromby_report report;
    uint8_t refusal;
} ceromby_rounded;

typedef struct ceromby_reading {
    uint8_t refusal;
    ceromby_tile tile;
    ceromby_canister members[CEROMBY_PLACES];
} ceromby_reading;

/* What ceromby_bound answers. */
typedef struct ceromby_bounded {
    uint32_t rounds;      /* 1 to 3,810,176,559; where refused, 0 */
    uint32_t connected;   /* K: canisters on tiles with a live path to a hopper */
    uint32_t unconnected; /* canisters on all other tiles, stopped ones too */
    uint8_t refusal;
} ceromby_bounded;

typedef struct ceromby_written {
    uint8_t refusal;
    uint32_t length; /* of the image or page, never 0; where refused, 0: don't store that many bytes, see ceromby_write */
} ceromby_written;

/* Deliveries at one hopper, over windows of 256 rounds. A new record is all zero. A rate is a closed window's deliveries
   divided by 256, exactly, so from 0 to 4; before the first close all three are 0. A record isn't sound, and is refused by
   30, if the open window has 256 rounds or more or over four deliveries a round, if a rate times 256 is no whole number
   from 0 to 1,024 (as a NaN's) or a rate is negative zero, if not least <= last <= greatest, or if a rate isn't 0 while
   closed is 0. */
typedef struct ceromby_throughput {
    double last;         /* rates of closed windows */
    double least;
    double greatest;
    uint16_t rounds;     /* of the open window */
    uint16_t deliveries; /* of the open window */
    uint8_t closed;      /* 0 until a window has closed; any other value: one has */
} ceromby_throughput;

/* ceromby_fed.kind: what a round did to the window. */
#define CEROMBY_FED_REFUSED 0
#define CEROMBY_FED_OPEN 1   /* it is still open; ceromby_fed.rounds says how many it has, 1 to 255, this one included */
#define CEROMBY_FED_CLOSED 2 /* this was its 256th; ceromby_fed.rate is its rate */

/* `FedValues` in Rattle, `raw::Told` in Rust. */
typedef struct ceromby_fed {
    ceromby_throughput throughput; /* where refused, as it came */
    double rate;                   /* 0 unless the window closed */
    uint16_t rounds;               /* 0 unless it is still open */
    uint8_t kind;
    uint8_t refusal;
} ceromby_fed;

/* An entry of a plan. Any bytes may stand here. */
typedef struct ceromby_entry {
    uint32_t tile;   /* a fill tile; looked at in a release alone */
    uint32_t number; /* what it is booked under; a delivered entry keeps it */
    uint8_t label;   /* 1 to 64, each once in a plan */
    uint8_t first;   /* labels of the plan, lower than its own, that must be delivered earlier; 0 for none */
    uint8_t second;
    uint8_t stage;   /* 0 waits, 2 delivered, any other byte booked */
} ceromby_entry;

/* What is to be fed in which order. A new plan has nothing but entries that wait. Entries from the count on are ignored and
   handed back. A plan isn't sound, and is refused by 30, if it claims more than 64 entries, if an entry past waiting has a
   predecessor's label on an entry that isn't delivered, or if two booked entries hold one number. */
typedef struct ceromby_plan {
    ceromby_entry entries[CEROMBY_MAX_ENTRIES];
    uint32_t count;
} ceromby_plan;

typedef struct ceromby_offered {
    uint8_t label; /* 0 where none is offered, and where refused: look at the refusal */
    uint8_t refusal;
} ceromby_offered;

typedef struct ceromby_planned {
    ceromby_plan plan;
    uint8_t refusal;
} ceromby_planned;

typedef struct ceromby_released {
    ceromby_floor floor;
    ceromby_plan plan;
    uint32_t number; /* what was booked, never 0; where refused, 0 */
    uint16_t a;      /* its place; where refused, (0, 0) */
    uint16_t b;
    uint8_t refusal;
} ceromby_released;

/* Four floors, numbered 0 to 3, with a joint allowance of canisters aboard. A barge isn't sound, and is refused by 30, if
   the allowance isn't 1 to 4,032, or if any floor isn't well formed. More canisters than that may be aboard: then nothing
   is booked until enough have been delivered. */
typedef struct ceromby_barge {
    ceromby_floor floors[CEROMBY_FLOORS];
    uint32_t allowance;
} ceromby_barge;

/* How many canisters are on the four floors together. */
static inline uint32_t ceromby_barge_aboard(const ceromby_barge *barge) {
    uint32_t count = 0;
    size_t floor;
    for (floor = 0; floor < CEROMBY_FLOORS; floor++)
        count += ceromby_aboard(&barge->floors[floor]);
    return count;
}

typedef struct ceromby_barge_answer {
    ceromby_barge barge;
    uint8_t refusal;
} ceromby_barge_answer;

typedef struct ceromby_barge_placed {
    ceromby_barge barge;
    uint16_t a; /* the place that the canister took; where refused, (0, 0) */
    uint16_t b;
    uint8_t refusal;
} ceromby_barge_placed;

typedef struct ceromby_barge_rounded {
    ceromby_barge barge;
    ceromby_report report;
    uint8_t refusal;
} ceromby_barge_rounded;

/* The calls, by value. */

/* The version of the archive, as CEROMBY_VERSION is the header's: a program may compare the two when it starts. */
CEROMBY_MUST_USE uint32_t ceromby_version(void);

/* A floor without canisters. Refused by 1, 2, 3. */
CEROMBY_MUST_USE ceromby_answer ceromby_fresh(ceromby_settings settings);

/* Adds a canister. Refused by 30, 4, 5, 6, 7, 31, 33, 34. */
CEROMBY_MUST_USE ceromby_answer ceromby_book(ceromby_floor floor, uint32_t tile, ceromby_canister canister);

/* Adds a canister at the place with the lowest b, then the lowest a, that keeps the spacing, as a booking there would.
   Refused by 30, 4, 5, 6, 31, 33, 40; by 40 exactly when no a and b from 0 to U - l keep it. */
CEROMBY_MUST_USE ceromby_placed ceromby_book_anywhere(ceromby_floor floor, uint32_t tile, uint32_t number);

/* Makes the bookings of a list one after the other, each on the floor that those before it gave, and writes each one's
   answer into its entry; the rest of the entry stays. A refused one doesn't stop those after it, and on a malformed floor
   every entry receives 30. The call itself is refused by 42 alone, which is tested first: then no entry is written. So
   look at each entry's answer; the call's refusal 0 doesn't mean that all were accepted. */
CEROMBY_MUST_USE ceromby_answer ceromby_book_list(ceromby_floor floor, ceromby_booking *list, size_t length);

/* Stops a tile; it keeps its canisters. Refused by 30, 4, 8, 31. */
CEROMBY_MUST_USE ceromby_answer ceromby_stop(ceromby_floor floor, uint32_t tile);

/* Sets a stopped tile running. Refused by 30, 4, 32. */
CEROMBY_MUST_USE ceromby_answer ceromby_repair(ceromby_floor floor, uint32_t tile);

/* Keeps the set of tiles that run under a name, in place of what that name held. Changes no tile.
   Refused by 30, 44, 46. */
CEROMBY_MUST_USE ceromby_answer ceromby_keep(ceromby_floor floor, ceromby_name name);

/* Frees the place of a name. Changes no tile. Refused by 30, 44, 45. */
CEROMBY_MUST_USE ceromby_answer ceromby_forget(ceromby_floor floor, ceromby_name name);

/* Makes the stops and repairs, in rising tile number, that are needed for just those tiles to run that ran when the layout
   was kept. All other tiles, canisters and counters stay as they are. Refused by 30, 44, 45. */
CEROMBY_MUST_USE ceromby_answer ceromby_recall(ceromby_floor floor, ceromby_name name);

/* One round: route, signal, move. Refused by 30. */
CEROMBY_MUST_USE ceromby_rounded ceromby_round(ceromby_floor floor);

/* All that a tile has. Refused by 30, 4. */
CEROMBY_MUST_USE ceromby_reading ceromby_read(ceromby_floor floor, uint32_t tile);

/* When at the latest: (C - 1) * (1 + K * M), M being (U - l) / v rounded down, plus 1. After so many rounds without an
   accepted booking, stop or repair, the numbers reported are just those of the K canisters that it counts, and the others
   are still on the floor. So it is the cap of a loop that runs rounds until all is delivered; ask again after an accepted
   booking, stop or repair, or recall. Changes nothing. Refused by 30. */
CEROMBY_MUST_USE ceromby_bounded ceromby_bound(ceromby_floor floor);

/* The floor of an image. Refused by the first fault in reading order: within a record 9, 10, 11, then 1, 2, 3; then 9 for
   bytes left over, then 12. With several hoppers the settings' record has 28 bytes, the set last and its lowest tile as the
   hopper byte (else 11; not tested for an empty set), and is 2 unless that has two to four tiles of the floor; the counters'
   record has one delivered counter for each. Up to eight layouts follow the counters, each in a record of 16 bytes (else
   11); a ninth is 10. Older images have none.

   Zero bytes, the image file of a new controller, load the standard floor, fresh: W 4, H 4, hopper 10, fill tile 4, U 1,000,
   l 250, r 50, v 200. So ceromby_load_in(&floor, NULL, 0) gives that floor to a caller that doesn't know the figures (by
   value: any pointer but NULL). One to three bytes are 9. Load only after a read that succeeded and reached the file's end:
   one that failed gives 0 bytes too.

   An image has no checksum. Of single changed bits many are refused, but a changed number, place or counter may load as
   another sound floor: store a checksum beside the image where the storage can err. */
CEROMBY_MUST_USE ceromby_answer ceromby_load(const uint8_t *bytes, size_t length);

/* Writes an image and leaves the bytes after it. Refused by 30, 13.

   Look at the refusal before the length is used. A refused write answers length 0: a program that stores `length` bytes all
   the same keeps an empty file, and loading that is accepted and gives the standard floor, without canisters and with
   counters at 0. */
CEROMBY_MUST_USE ceromby_written ceromby_write(ceromby_floor floor, uint8_t *buffer, size_t length);

/* Writes the floor as H lines of text, the north row first, and leaves the bytes after them: H * (8 * W + 2) bytes,
   without a zero at the end. A line is a bar, for each tile from the west seven columns and a bar, and byte 10. The
   columns are the count of canisters in two, a blank, the arrow (W, S, N, E or -), a blank, and the distance in two (--
   for none, XX on a stopped tile); numbers are right-aligned. Refused by 30, 43. */
CEROMBY_MUST_USE ceromby_written ceromby_page(ceromby_floor floor, uint8_t *buffer, size_t length);

/* Takes a round's delivered count at one hopper, ceromby_report.deliveries[i].count: one record for each hopper. The 256th
   round closes the window, sets the rates and empties it; an open round keeps the rates and the closed byte as they are, a
   close sets that to 1. Refused by 30 (the record isn't sound), 41. */
CEROMBY_MUST_USE ceromby_fed ceromby_feed(ceromby_throughput throughput, uint32_t count);

/* The lowest label that waits and whose predecessors are all delivered; 0, accepted, if there is none. Refused by 30 (the
   plan isn't sound), 47. */
CEROMBY_MUST_USE ceromby_offered ceromby_plan_offer(ceromby_plan plan);

/* Books a label that waits, offered or not, as ceromby_book_anywhere does: on its entry's tile, under the number after the
   last booked on the floor. The entry becomes booked under it. Refused by 30 (the plan isn't sound, the floor isn't well
   formed, or a booked number is 0 or above the last booked), 47, 48, 4, 5, 31, 33 (no number is left), 40. */
CEROMBY_MUST_USE ceromby_released ceromby_plan_release(ceromby_plan plan, ceromby_floor floor, uint32_t label);

/* Marks delivered the booked entries whose numbers a round's report lists for any hopper, and changes nothing else. Hand in
   every report from the first release on. Refused by 30 (the plan isn't sound, or a ceromby_delivery.count is above 4),
   47. */
CEROMBY_MUST_USE ceromby_planned ceromby_plan_report(ceromby_plan plan, ceromby_report report);

/* The calls on a floor of a barge. Each does to the floor of that number what the call without a barge does to a lone one,
   and leaves the other three and the allowance. A refused one gives the barge that was handed in. First comes 30 (the barge
   isn't sound), then 49, then what the call is refused by on a lone floor, and last, for the two bookings, 50: as many
   canisters are aboard, on all four floors together, as the allowance, or more. Each delivery, on any floor, makes room for
   one more. */

/* Refused by 30, 49, 4, 5, 6, 7, 31, 33, 34, 50. */
CEROMBY_MUST_USE ceromby_barge_answer ceromby_barge_book(ceromby_barge barge, uint32_t floor, uint32_t tile,
                                                         ceromby_canister canister);

/* Refused by 30, 49, 4, 5, 6, 31, 33, 40, 50. */
CEROMBY_MUST_USE ceromby_barge_placed ceromby_barge_book_anywhere(ceromby_barge barge, uint32_t floor, uint32_t tile,
                                                                  uint32_t number);

/* Refused by 30, 49, 4, 8, 31. */
CEROMBY_MUST_USE ceromby_barge_answer ceromby_barge_stop(ceromby_barge barge, uint32_t floor, uint32_t tile);

/* Refused by 30, 49, 4, 32. */
CEROMBY_MUST_USE ceromby_barge_answer ceromby_barge_repair(ceromby_barge barge, uint32_t floor, uint32_t tile);

/* One round of one floor; the report is that floor's. Refused by 30, 49. */
CEROMBY_MUST_USE ceromby_barge_rounded ceromby_barge_round(ceromby_barge barge, uint32_t floor);

/* The calls, in place. Each gives the number of the refusal, 0 for accepted; which they are stands at the call of the same
   name without _in. What a call tells beside the floor goes to the last pointers, which must not be NULL: zeros where it was
   refused. Of an array, NULL may be handed in with length 0. */

/* A place on a tile: of a canister's south-west corner, from the tile's. */
typedef struct ceromby_place {
    uint16_t a; /* eastward */
    uint16_t b; /* northward */
} ceromby_place;

/* Refused, the floor stays as it was: what the answer has then is the all-zero floor. */
CEROMBY_MUST_USE static inline uint8_t ceromby_fresh_in(ceromby_floor *floor, ceromby_settings settings) {
    ceromby_answer answer = ceromby_fresh(settings);
    if (answer.refusal == CEROMBY_ACCEPTED)
        *floor = answer.floor;
    return answer.refusal;
}

/* The same. ceromby_load_in(&floor, NULL, 0) gives the standard floor. */
CEROMBY_MUST_USE static inline uint8_t ceromby_load_in(ceromby_floor *floor, const uint8_t *bytes, size_t length) {
    const uint8_t none = 0;
    ceromby_answer answer = ceromby_load(length != 0 ? bytes : &none, length);
    if (answer.refusal == CEROMBY_ACCEPTED)
        *floor = answer.floor;
    return answer.refusal;
}

CEROMBY_MUST_USE static inline uint8_t ceromby_book_in(ceromby_floor *floor, uint32_t tile, ceromby_canister canister) {
    ceromby_answer answer = ceromby_book(*floor, tile, canister);
    *floor = answer.floor;
    return answer.refusal;
}

/* (0, 0) is a place too: look at the refusal before the arm is sent. */
CEROMBY_MUST_USE static inline uint8_t ceromby_book_anywhere_in(ceromby_floor *floor, uint32_t tile, uint32_t number,
                                                                ceromby_place *place) {
    ceromby_placed placed = ceromby_book_anywhere(*floor, tile, number);
    *floor = placed.floor;
    place->a = placed.a;
    place->b = placed.b;
    return placed.refusal;
}

/* Look at each entry's answer; 0 doesn't mean that one was accepted. */
CEROMBY_MUST_USE static inline uint8_t ceromby_book_list_in(ceromby_floor *floor, ceromby_booking *list,
                                                            size_t length) {
    ceromby_booking none;
    ceromby_answer answer = ceromby_book_list(*floor, length != 0 ? list : &none, length);
    *floor = answer.floor;
    return answer.refusal;
}

CEROMBY_MUST_USE static inline uint8_t ceromby_stop_in(ceromby_floor *floor, uint32_t tile) {
    ceromby_answer answer = ceromby_stop(*floor, tile);
    *floor = answer.floor;
    return answer.refusal;
}

CEROMBY_MUST_USE static inline uint8_t ceromby_repair_in(ceromby_floor *floor, uint32_t tile) {
    ceromby_answer answer = ceromby_repair(*floor, tile);
    *floor = answer.floor;
    return answer.refusal;
}

/* ceromby_keep_in(&floor, ceromby_name_of("NETS")) */
CEROMBY_MUST_USE static inline uint8_t ceromby_keep_in(ceromby_floor *floor, ceromby_name name) {
    ceromby_answer answer = ceromby_keep(*floor, name);
    *floor = answer.floor;
    return answer.refusal;
}

CEROMBY_MUST_USE static inline uint8_t ceromby_forget_in(ceromby_floor *floor, ceromby_name name) {
    ceromby_answer answer = ceromby_forget(*floor, name);
    *floor = answer.floor;
    return answer.refusal;
}

CEROMBY_MUST_USE static inline uint8_t ceromby_recall_in(ceromby_floor *floor, ceromby_name name) {
    ceromby_answer answer = ceromby_recall(*floor, name);
    *floor = answer.floor;
    return answer.refusal;
}

CEROMBY_MUST_USE static inline uint8_t ceromby_round_in(ceromby_floor *floor, ceromby_report *report) {
    ceromby_rounded rounded = ceromby_round(*floor);
    *floor = rounded.floor;
    *report = rounded.report;
    return rounded.refusal;
}

CEROMBY_MUST_USE static inline uint8_t ceromby_read_in(const ceromby_floor *floor, uint32_t tile,
                                                       ceromby_reading *reading) {
    *reading = ceromby_read(*floor, tile);
    return reading->refusal;
}

CEROMBY_MUST_USE static inline uint8_t ceromby_bound_in(const ceromby_floor *floor, ceromby_bounded *bounded) {
    *bounded = ceromby_bound(*floor);
    return bounded->refusal;
}

/* Don't store 0 bytes of a refused write: they load as the standard floor. */
CEROMBY_MUST_USE static inline uint8_t ceromby_write_in(const ceromby_floor *floor, uint8_t *buffer, size_t size,
                                                        size_t *length) {
    uint8_t none;
    ceromby_written written = ceromby_write(*floor, size != 0 ? buffer : &none, size);
    *length = written.length;
    return written.refusal;
}

CEROMBY_MUST_USE static inline uint8_t ceromby_page_in(const ceromby_floor *floor, uint8_t *buffer, size_t size,
                                                       size_t *length) {
    uint8_t none;
    ceromby_written written = ceromby_page(*floor, size != 0 ? buffer : &none, size);
    *length = written.length;
    return written.refusal;
}

CEROMBY_MUST_USE static inline uint8_t ceromby_feed_in(ceromby_throughput *throughput, uint32_t count,
                                                       ceromby_fed *fed) {
    *fed = ceromby_feed(*throughput, count);
    *throughput = fed->throughput;
    return fed->refusal;
}

CEROMBY_MUST_USE static inline uint8_t ceromby_plan_offer_in(const ceromby_plan *plan, uint8_t *label) {
    ceromby_offered offered = ceromby_plan_offer(*plan);
    *label = offered.label;
    return offered.refusal;
}

CEROMBY_MUST_USE static inline uint8_t ceromby_plan_release_in(ceromby_plan *plan, ceromby_floor *floor, uint32_t label,
                                                               uint32_t *number, ceromby_place *place) {
    ceromby_released released = ceromby_plan_release(*plan, *floor, label);
    *plan = released.plan;
    *floor = released.floor;
    *number = released.number;
    place->a = released.a;
    place->b = released.b;
    return released.refusal;
}

CEROMBY_MUST_USE static inline uint8_t ceromby_plan_report_in(ceromby_plan *plan, const ceromby_report *report) {
    ceromby_planned planned = ceromby_plan_report(*plan, *report);
    *plan = planned.plan;
    return planned.refusal;
}

CEROMBY_MUST_USE static inline uint8_t ceromby_barge_book_in(ceromby_barge *barge, uint32_t floor, uint32_t tile,
                                                             ceromby_canister canister) {
    ceromby_barge_answer answer = ceromby_barge_book(*barge, floor, tile, canister);
    *barge = answer.barge;
    return answer.refusal;
}

CEROMBY_MUST_USE static inline uint8_t ceromby_barge_book_anywhere_in(ceromby_barge *barge, uint32_t floor,
                                                                      uint32_t tile, uint32_t number,
                                                                      ceromby_place *place) {
    ceromby_barge_placed placed = ceromby_barge_book_anywhere(*barge, floor, tile, number);
    *barge = placed.barge;
    place->a = placed.a;
    place->b = placed.b;
    return placed.refusal;
}

CEROMBY_MUST_USE static inline uint8_t ceromby_barge_stop_in(ceromby_barge *barge, uint32_t floor, uint32_t tile) {
    ceromby_barge_answer answer = ceromby_barge_stop(*barge, floor, tile);
    *barge = answer.barge;
    return answer.refusal;
}

CEROMBY_MUST_USE static inline uint8_t ceromby_barge_repair_in(ceromby_barge *barge, uint32_t floor, uint32_t tile) {
    ceromby_barge_answer answer = ceromby_barge_repair(*barge, floor, tile);
    *barge = answer.barge;
    return answer.refusal;
}

CEROMBY_MUST_USE static inline uint8_t ceromby_barge_round_in(ceromby_barge *barge, uint32_t floor,
                                                              ceromby_report *report) {
    ceromby_barge_rounded rounded = ceromby_barge_round(*barge, floor);
    *barge = rounded.barge;
    *report = rounded.report;
    return rounded.refusal;
}

#ifdef __cplusplus
}
#endif

/* The archive reads these structs with these sizes; packed structs or another platform have others. */
#if defined(__cplusplus) && __cplusplus >= 201103L
static_assert(sizeof(ceromby_floor) == 8696 && sizeof(ceromby_barge) == 34792 && sizeof(ceromby_plan) == 772,
              "ceromby.h: structs have another layout than in the archive");
#elif defined(__STDC_VERSION__) && __STDC_VERSION__ >= 201112L
_Static_assert(sizeof(ceromby_floor) == 8696 && sizeof(ceromby_barge) == 34792 && sizeof(ceromby_plan) == 772,
               "ceromby.h: structs have another layout than in the archive");
#endif

#endif
