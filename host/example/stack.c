/* How much stack each call takes, its caller's arguments and answer included. Fails if the header's figures are less than
   that, or over 4 KB more.

   The floors are those that need most: 8 x 8 tiles, full, with numbers that take the longest way through the check (all have
   one remainder by 2,039, so that the passes decide). */

#include "painted.h"

#include "ceromby.h"

#define SLACK 4096

static ceromby_floor floor_, work_floor;
static ceromby_barge barge_, work_barge;
static ceromby_plan plan_, work_plan;
static ceromby_report report;
static ceromby_throughput record;
static ceromby_booking list[CEROMBY_LONGEST_LIST];
static uint8_t image[CEROMBY_LONGEST_IMAGE], page[CEROMBY_LONGEST_PAGE], label;
static size_t length, image_length;
static uint32_t number;
static ceromby_place place;
static ceromby_canister canister = {4000000000u, 20, 20};
static ceromby_settings settings;
static volatile unsigned sink;

static void nothing(void) { sink = 1; }

/* Each call in place, and by value with its answer in the caller's frame. */
#define CALL(name, in_place, by_value)                     \
    static void name##_in(void) { sink = in_place; }       \
    static void name##_by_value(void) { sink = by_value.refusal; }

CALL(fresh, ceromby_fresh_in(&work_floor, settings), ceromby_fresh(settings))
CALL(load, ceromby_load_in(&work_floor, image, image_length), ceromby_load(image, image_length))
CALL(book, ceromby_book_in(&work_floor, 0, canister), ceromby_book(work_floor, 0, canister))
CALL(book_anywhere, ceromby_book_anywhere_in(&work_floor, 0, canister.number, &place),
     ceromby_book_anywhere(work_floor, 0, canister.number))
CALL(book_list, ceromby_book_list_in(&work_floor, list, CEROMBY_LONGEST_LIST),
     ceromby_book_list(work_floor, list, CEROMBY_LONGEST_LIST))
CALL(stop, ceromby_stop_in(&work_floor, 0), ceromby_stop(work_floor, 0))
CALL(repair, ceromby_repair_in(&work_floor, 0), ceromby_repair(work_floor, 0))
CALL(keep, ceromby_keep_in(&work_floor, ceromby_name_of("ALL")), ceromby_keep(work_floor, ceromby_name_of("ALL")))
CALL(forget, ceromby_forget_in(&work_floor, ceromby_name_of("ALL")), ceromby_forget(work_floor, ceromby_name_of("ALL")))
CALL(recall, ceromby_recall_in(&work_floor, ceromby_name_of("ALL")), ceromby_recall(work_floor, ceromby_name_of("ALL")))
CALL(round, ceromby_round_in(&work_floor, &report), ceromby_round(work_floor))
static ceromby_bounded bounded;
CALL(bound, ceromby_bound_in(&work_floor, &bounded), ceromby_bound(work_floor))
static ceromby_reading reading;
CALL(read, ceromby_read_in(&work_floor, 0, &reading), ceromby_read(work_floor, 0))
CALL(write, ceromby_write_in(&work_floor, image, sizeof image, &length), ceromby_write(work_floor, image, sizeof image))
CALL(page, ceromby_page_in(&work_floor, page, sizeof page, &length), ceromby_page(work_floor, page, sizeof page))
static ceromby_fed fed;
CALL(feed, ceromby_feed_in(&record, 1, &fed), ceromby_feed(record, 1))
CALL(plan_offer, ceromby_plan_offer_in(&work_plan, &label), ceromby_plan_offer(work_plan))
CALL(plan_release, ceromby_plan_release_in(&work_plan, &work_floor, 64, &number, &place),
     ceromby_plan_release(work_plan, work_floor, 64))
CALL(plan_report, ceromby_plan_report_in(&work_plan, &report), ceromby_plan_report(work_plan, report))
CALL(barge_book, ceromby_barge_book_in(&work_barge, 3, 0, canister), ceromby_barge_book(work_barge, 3, 0, canister))
CALL(barge_book_anywhere, ceromby_barge_book_anywhere_in(&work_barge, 3, 0, canister.number, &place),
     ceromby_barge_book_anywhere(work_barge, 3, 0, canister.number))
CALL(barge_stop, ceromby_barge_stop_in(&work_barge, 3, 0), ceromby_barge_stop(work_barge, 3, 0))
CALL(barge_repair, ceromby_barge_repair_in(&work_barge, 3, 0), ceromby_barge_repair(work_barge, 3, 0))
CALL(barge_round, ceromby_barge_round_in(&work_barge, 3, &report), ceromby_barge_round(work_barge, 3))

static const struct {
    const char *name;
    void (*in_place)(void), (*by_value)(void);
} calls[] = {
#define ROW(name) {#name, name##_in, name##_by_value}
    ROW(fresh), ROW(load), ROW(book), ROW(book_anywhere), ROW(book_list), ROW(stop), ROW(repair), ROW(keep), ROW(forget),
    ROW(recall), ROW(round), ROW(bound), ROW(read), ROW(write), ROW(page), ROW(feed), ROW(plan_offer), ROW(plan_release),
    ROW(plan_report), ROW(barge_book), ROW(barge_book_anywhere), ROW(barge_stop), ROW(barge_repair), ROW(barge_round),
};

static void fail(const char *why) {
    printf("stack: %s\n", why);
    exit(1);
}

/* A full floor: the settings' every place taken, tile by tile. */
static void fill(void) {
    uint32_t canisters = 0;
    size_t tile, at;
    settings.columns = 8;
    settings.rows = 8;
    settings.hoppers = CEROMBY_TILE(27);
    settings.sources = ~settings.hoppers;
    settings.width = 1000;
    settings.length = 200;
    settings.gap = 50;
    settings.travel = 150;
    if (ceromby_fresh_in(&floor_, settings) != CEROMBY_ACCEPTED)
        fail("no floor");
    for (tile = 0; tile < CEROMBY_MAX_TILES; tile++)
        if (ceromby_round_in(&floor_, &report) != CEROMBY_ACCEPTED)
            fail("no round");
    for (tile = 0; tile < CEROMBY_MAX_TILES; tile++) {
        if (settings.hoppers & CEROMBY_TILE(tile))
            continue;
        for (at = 0; at < CEROMBY_PLACES; at++) {
            ceromby_canister *place_of = &floor_.canisters[CEROMBY_PLACES * tile + at];
            place_of->number = 5 + 2039 * canisters++;
            place_of->a = (uint16_t)(at % 4 * 250 + 20);
            place_of->b = (uint16_t)(at / 4 * 250 + 20);
        }
        floor_.tiles[tile].count = CEROMBY_PLACES;
    }
    floor_.counters.last = 5 + 2039u * 1007u;
    floor_.counters.booked = canisters;
    if (ceromby_aboard(&floor_) != 1008 || ceromby_read_in(&floor_, 0, &reading) != CEROMBY_ACCEPTED)
        fail("the full floor isn't well formed");
}

static void begin(void) {
    work_floor = floor_;
    work_plan = plan_;
    work_barge = barge_;
}

/* The calls in groups, by what README tells of each. */
enum { LONE, LIST, RELEASE, BARGE, BARGE_ROUND, GROUPS };

static int group(const char *name) {
    if (strncmp(name, "barge", 5) == 0)
        return strcmp(name, "barge_round") == 0 ? BARGE_ROUND : BARGE;
    if (strcmp(name, "plan_release") == 0)
        return RELEASE;
    return strcmp(name, "book_list") == 0 ? LIST : LONE;
}

static size_t greater(size_t x, size_t y) { return x > y ? x : y; }

/* In thousands, upward. */
static size_t kb(size_t bytes) { return (bytes + 999) / 1000; }

int main(void) {
    size_t most[GROUPS] = {0}, lone, barge, base, i;
    fill();
    for (i = 0; i < CEROMBY_FLOORS; i++)
        barge_.floors[i] = floor_;
    barge_.allowance = CEROMBY_MAX_ALLOWANCE;
    plan_.count = CEROMBY_MAX_ENTRIES;
    for (i = 0; i < CEROMBY_MAX_ENTRIES; i++) {
        plan_.entries[i].label = (uint8_t)(i + 1);
        list[i].tile = (uint32_t)i;
        list[i].canister = canister;
    }
    if (ceromby_write_in(&floor_, image, sizeof image, &image_length) != CEROMBY_ACCEPTED)
        fail("no image");
    base = depth(nothing);
    for (i = 0; i < sizeof calls / sizeof calls[0]; i++) {
        size_t in_place, by_value, *of = &most[group(calls[i].name)];
        begin();
        in_place = depth(calls[i].in_place) - base;
        begin();
        by_value = depth(calls[i].by_value) - base;
        printf("%-20s %7zu in place %7zu by value\n", calls[i].name, in_place, by_value);
        *of = greater(*of, greater(in_place, by_value));
    }
    lone = greater(most[LONE], greater(most[LIST], most[RELEASE]));
    barge = greater(most[BARGE], most[BARGE_ROUND]);
    if (lone > CEROMBY_STACK || barge > CEROMBY_BARGE_STACK)
        fail("a call takes more than CEROMBY_STACK or CEROMBY_BARGE_STACK says");
    if (lone + SLACK < CEROMBY_STACK || barge + SLACK < CEROMBY_BARGE_STACK)
        fail("CEROMBY_STACK or CEROMBY_BARGE_STACK says over 4 KB more than any call takes");
    printf("a call on a floor takes up to %zu KB, a list of bookings %zu, a plan's release %zu; on a barge %zu, a round there %zu\n",
           kb(most[LONE]), kb(most[LIST]), kb(most[RELEASE]), kb(most[BARGE]), kb(most[BARGE_ROUND]));
    return 0;
}
