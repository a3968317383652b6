/* Two tiles in a line: fill on tile 0, hopper on tile 1. */

#include <stdbool.h>
#include <stdio.h>
#include <string.h>

#include "ceromby.h"

static void show(const char *what, ceromby_floor floor) {
    ceromby_reading reading = ceromby_read(floor, 0);
    printf("%s: tile 0 %s, distance ", what, reading.tile.running ? "running" : "stopped");
    if (reading.tile.distance == CEROMBY_DISTANCE_NONE)
        printf("none");
    else
        printf("%u", reading.tile.distance);
    printf(", arrow %u, %u canisters", reading.tile.next.code, reading.tile.count);
    for (unsigned i = 0; i < reading.tile.count; i++)
        printf(", %lu at (%u, %u)", (unsigned long)reading.members[i].number,
               reading.members[i].a, reading.members[i].b);
    printf("\n");
}

/* Rounds until the canister is delivered. */
static ceromby_floor deliver(ceromby_floor floor) {
    for (unsigned round = 1; floor.counters.delivered[0] == 0 && round <= 5; round++) {
        ceromby_rounded rounded = ceromby_round(floor);
        if (rounded.refusal != CEROMBY_ACCEPTED)
            break;
        floor = rounded.floor;
        printf("round %u, tile 0 has reason %u, the hopper grants %u", round,
               rounded.report.reasons[0], rounded.report.grants[1]);
        ceromby_delivery delivery = rounded.report.deliveries[0];
        for (unsigned i = 0; i < delivery.count; i++)
            printf(", delivered %lu", (unsigned long)delivery.numbers[i]);
        printf("\n");
        show("  after", floor);
    }
    return floor;
}

static ceromby_floor stop(ceromby_floor floor) {
    ceromby_answer answer = ceromby_stop(floor, 0);
    printf("stop tile 0: %u\n", answer.refusal);
    floor = answer.floor;
    show("stopped", floor);
    printf("stop tile 0 again: %u\n", ceromby_stop(floor, 0).refusal);
    ceromby_canister canister = {.number = 6, .a = 0, .b = 0};
    printf("book canister 6: %u\n", ceromby_book(floor, 0, canister).refusal);
    printf("stop the hopper: %u\n", ceromby_stop(floor, 1).refusal);
    return floor;
}

/* Writes an image and says whether there is one. A refused write has the length 0, and zero bytes load the standard
   floor: to store `length` bytes without this test is to lose the floor. */
static bool written_to(ceromby_floor floor, uint8_t *buffer, size_t size, ceromby_written *written) {
    *written = ceromby_write(floor, buffer, size);
    printf("write to %lu bytes: %u, length %lu\n", (unsigned long)size, written->refusal,
           (unsigned long)written->length);
    return written->refusal == CEROMBY_ACCEPTED;
}

static void store(ceromby_floor floor) {
    static uint8_t image[CEROMBY_LONGEST_IMAGE], again[CEROMBY_LONGEST_IMAGE];
    ceromby_written written;
    if (!written_to(floor, image, 63, &written))
        printf("  no image to store\n");
    if (!written_to(floor, image, sizeof image, &written))
        return;
    ceromby_answer answer = ceromby_load(image, written.length);
    printf("load: %u, counters %lu %lu %lu\n", answer.refusal,
           (unsigned long)answer.floor.counters.last,
           (unsigned long)answer.floor.counters.booked,
           (unsigned long)answer.floor.counters.delivered[0]);
    show("loaded", answer.floor);
    printf("load without the last byte: %u\n", ceromby_load(image, written.length - 1).refusal);
    printf("load one byte: %u\n", ceromby_load(image, 1).refusal);
    ceromby_written second;
    if (!written_to(answer.floor, again, sizeof again, &second))
        return;
    bool same = second.length == written.length && memcmp(image, again, second.length) == 0;
    printf("written again: %s\n", same ? "the same bytes" : "other bytes");
}

static void tiles(uint64_t set) {
    for (unsigned tile = 0; tile < CEROMBY_MAX_TILES; tile++)
        if (set & CEROMBY_TILE(tile))
            printf(" %u", tile);
}

/* The page of a floor, as the wheelhouse shows it. */
static void print_page(ceromby_floor floor) {
    uint8_t page[CEROMBY_LONGEST_PAGE];
    ceromby_written written = ceromby_page(floor, page, sizeof page);
    printf("page: %u, length %lu\n", written.refusal, (unsigned long)written.length);
    fwrite(page, 1, written.length, stdout);
    printf("page to one byte less: %u\n", ceromby_page(floor, page, written.length - 1).refusal);
}

/* A new controller has an empty file: zero bytes load the standard floor, fresh. */
static void start_blank(void) {
    static uint8_t image[CEROMBY_LONGEST_IMAGE];
    ceromby_answer answer = ceromby_load(image, 0);
    ceromby_settings settings = answer.floor.settings;
    printf("load zero bytes: %u, W %u, H %u, hopper", answer.refusal, settings.columns, settings.rows);
    tiles(settings.hoppers);
    printf(", fill tile");
    tiles(settings.sources);
    printf(", U %u, l %u, r %u, v %u\n", settings.width, settings.length, settings.gap, settings.travel);
    ceromby_written written;
    if (written_to(answer.floor, image, sizeof image, &written))
        show("loaded again", ceromby_load(image, written.length).floor);
    print_page(ceromby_stop(ceromby_round(answer.floor).floor, 0).floor);
}

static void list(const char *what, ceromby_answer answer) {
    printf("%s: %u, layouts", what, answer.refusal);
    for (unsigned i = 0; i < CEROMBY_MAX_LAYOUTS && answer.floor.layouts[i].name; i++) {
        ceromby_layout layout = answer.floor.layouts[i];
        printf(" ");
        for (unsigned at = 0; at < 8 && CEROMBY_LETTER(layout, at); at++)
            printf("%c", CEROMBY_LETTER(layout, at));
        tiles(layout.set);
    }
    printf("\n");
}

/* Tile 0 stands while the nets are cleaned. */
static void clean_nets(ceromby_floor floor) {
    ceromby_name all = {.letters = "ALL"}, nets = {.letters = "NETS"}, small = {.letters = "nets"};
    ceromby_answer answer = ceromby_keep(floor, all);
    list("keep ALL", answer);
    answer = ceromby_keep(ceromby_stop(answer.floor, 0).floor, nets);
    list("keep NETS", answer);
    answer = ceromby_recall(answer.floor, all);
    list("recall ALL", answer);
    show("  after", answer.floor);
    answer = ceromby_recall(answer.floor, nets);
    list("recall NETS", answer);
    show("  after", answer.floor);
    static uint8_t image[CEROMBY_LONGEST_IMAGE];
    ceromby_written written;
    if (written_to(answer.floor, image, sizeof image, &written))
        list("load", ceromby_load(image, written.length));
    list("forget ALL", ceromby_forget(answer.floor, all));
    printf("keep nets: %u\n", ceromby_keep(floor, small).refusal);
    printf("recall NETS before it was kept: %u\n", ceromby_recall(floor, nets).refusal);
}

/* Canisters on tile 0 until there is no place left for one more. */
static void fill(ceromby_floor floor) {
    ceromby_placed placed = {.floor = floor};
    for (uint32_t number = 1; placed.refusal == CEROMBY_ACCEPTED; number++) {
        placed = ceromby_book_anywhere(placed.floor, 0, number);
        printf("book canister %lu anywhere: %u", (unsigned long)number, placed.refusal);
        if (placed.refusal == CEROMBY_ACCEPTED)
            printf(" at (%u, %u)", placed.a, placed.b);
        printf("\n");
    }
    show("  after", placed.floor);
}

/* A list from a phone: the second is too close to the first, the last has a number below the third's. */
static void fill_by_list(ceromby_floor floor) {
    ceromby_booking list[] = {
        {.tile = 0, .canister = {.number = 3, .a = 0, .b = 0}},
        {.tile = 0, .canister = {.number = 4, .a = 39, .b = 39}},
        {.tile = 0, .canister = {.number = 5, .a = 40, .b = 0}},
        {.tile = 0, .canister = {.number = 4, .a = 0, .b = 40}},
    };
    size_t length = sizeof list / sizeof list[0];
    ceromby_answer answer = ceromby_book_list(floor, list, length);
    printf("book a list: %u, answers", answer.refusal);
    for (size_t i = 0; i < length; i++)
        printf(" %u", list[i].answer);
    printf("\n");
    show("  after", answer.floor);
    static ceromby_booking longer[CEROMBY_LONGEST_LIST + 1];
    answer = ceromby_book_list(floor, longer, CEROMBY_LONGEST_LIST + 1);
    printf("book a list of 65: %u, first answer %u\n", answer.refusal, longer[0].answer);
}

/* Two canisters on three tiles: the second is in the way of the first. */
static void stand(ceromby_settings settings) {
    settings.columns = 3;
    settings.hoppers = CEROMBY_TILE(2);
    settings.sources = CEROMBY_TILE(0) | CEROMBY_TILE(1);
    ceromby_floor floor = ceromby_fresh(settings).floor;
    for (uint8_t tile = 0; tile < 2; tile++) {
        ceromby_canister canister = {.number = tile + 1, .a = 5, .b = 0};
        floor = ceromby_book(floor, tile, canister).floor;
    }
    for (unsigned round = 1; round <= 3; round++) {
        ceromby_rounded rounded = ceromby_round(floor);
        printf("three tiles, round %u, reasons", round);
        for (unsigned tile = 0; tile < 3; tile++) {
            printf(" %u", rounded.report.reasons[tile]);
            if (rounded.report.reasons[tile] == CEROMBY_REASON_NO_GAP)
                printf(" (%u missing)", rounded.report.missing[tile]);
        }
        printf("\n");
        floor = rounded.floor;
    }
}

/* Two windows of rounds: one canister in each round, then four. */
static void measure(void) {
    ceromby_throughput record = {0};
    for (unsigned round = 1; round <= 2 * CEROMBY_WINDOW; round++) {
        ceromby_fed fed = ceromby_feed(record, round <= CEROMBY_WINDOW ? 1 : 4);
        if (fed.refusal != CEROMBY_ACCEPTED)
            break;
        record = fed.throughput;
        if (fed.kind == CEROMBY_FED_CLOSED)
            printf("round %u closes a window with rate %g\n", round, fed.rate);
        else if (fed.rounds == 1 || fed.rounds == CEROMBY_WINDOW - 1)
            printf("round %u: the window has %u rounds, %u deliveries\n", round, fed.rounds, record.deliveries);
    }
    printf("last %g, least %g, greatest %g\n", record.last, record.least, record.greatest);
    printf("feed five: %u\n", ceromby_feed(record, 5).refusal);
    record.least = -0.0;
    printf("feed a record with negative zero: %u\n", ceromby_feed(record, 0).refusal);
}

/* Medicated feed follows plain: label 2 waits until the delivery of label 1 was reported. */
static void follow(ceromby_floor floor) {
    ceromby_plan plan = {
        .entries = {{.label = 1, .tile = 0}, {.label = 2, .tile = 0, .first = 1}},
        .count = 2,
    };
    for (unsigned round = 1; round <= 9; round++) {
        ceromby_offered offered = ceromby_plan_offer(plan);
        printf("round %u, offered %u", round, offered.label);
        if (offered.label != 0) {
            ceromby_released released = ceromby_plan_release(plan, floor, offered.label);
            printf(", released: %u, canister %lu at (%u, %u), label 2: %u", released.refusal,
                   (unsigned long)released.number, released.a, released.b,
                   ceromby_plan_release(released.plan, released.floor, 2).refusal);
            plan = released.plan;
            floor = released.floor;
        }
        ceromby_rounded rounded = ceromby_round(floor);
        floor = rounded.floor;
        plan = ceromby_plan_report(plan, rounded.report).plan;
        printf(", stages %u %u\n", plan.entries[0].stage, plan.entries[1].stage);
    }
    plan.entries[1].first = 3;
    printf("offer with an absent predecessor: %u\n", ceromby_plan_offer(plan).refusal);
    plan.count = CEROMBY_MAX_ENTRIES + 1;
    printf("offer of a plan that claims 65 entries: %u\n", ceromby_plan_offer(plan).refusal);
}

/* Four floors with room for two canisters together: the third is booked once one of them was delivered. */
static void share(ceromby_floor floor) {
    static ceromby_barge barge;
    for (unsigned i = 0; i < CEROMBY_FLOORS; i++)
        barge.floors[i] = floor;
    barge.allowance = 2;
    ceromby_barge_placed placed = ceromby_barge_book_anywhere(barge, 0, 0, 5);
    printf("book on floor 0: %u at (%u, %u)\n", placed.refusal, placed.a, placed.b);
    ceromby_canister canister = {.number = 5, .a = 60, .b = 0};
    ceromby_barge_answer answer = ceromby_barge_book(placed.barge, 3, 0, canister);
    printf("book on floor 3: %u\n", answer.refusal);
    printf("book on floor 1: %u\n", ceromby_barge_book(answer.barge, 1, 0, canister).refusal);
    ceromby_barge_rounded rounded = ceromby_barge_round(answer.barge, 3);
    ceromby_delivery delivery = rounded.report.deliveries[0];
    printf("round of floor 3: %u, %u delivered, number %lu\n", rounded.refusal, delivery.count,
           (unsigned long)delivery.numbers[0]);
    printf("book on floor 1: %u\n", ceromby_barge_book(rounded.barge, 1, 0, canister).refusal);
    answer = ceromby_barge_stop(rounded.barge, 0, 0);
    printf("stop tile 0 of floor 0: %u\n", answer.refusal);
    show("  floor 0", answer.barge.floors[0]);
    show("  floor 1", answer.barge.floors[1]);
    printf("repair it: %u\n", ceromby_barge_repair(answer.barge, 0, 0).refusal);
    printf("round of floor 4: %u\n", ceromby_barge_round(answer.barge, CEROMBY_FLOORS).refusal);
    barge.allowance = CEROMBY_MAX_ALLOWANCE + 1;
    printf("an allowance of 4,033: %u\n", ceromby_barge_round(barge, CEROMBY_FLOORS).refusal);
}

int main(void) {
    ceromby_settings settings = {
        .columns = 2, .rows = 1, .hoppers = CEROMBY_TILE(1), .sources = CEROMBY_TILE(0),
        .width = 100, .length = 30, .gap = 10, .travel = 20,
    };
    ceromby_answer answer = ceromby_fresh(settings);
    printf("fresh: %u\n", answer.refusal);
    show("fresh", answer.floor);
    ceromby_canister canister = {.number = 5, .a = 0, .b = 0};
    answer = ceromby_book(answer.floor, 0, canister);
    printf("book canister 5: %u\n", answer.refusal);
    store(stop(deliver(answer.floor)));
    fill(ceromby_fresh(settings).floor);
    fill_by_list(ceromby_fresh(settings).floor);
    stand(settings);
    clean_nets(ceromby_fresh(settings).floor);
    start_blank();
    measure();
    follow(ceromby_fresh(settings).floor);
    share(ceromby_fresh(settings).floor);
    return 0;
}
