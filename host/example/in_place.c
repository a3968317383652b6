/* The calls in place against the calls by value: long random lists, every refusal on the way, and what a refused call leaves.
   Compiled as C and as C++. */

#include <stdio.h>
#include <stdlib.h>
#include <string.h>

#include "ceromby.h"

#define CHECK(holds)                                                             \
    do {                                                                         \
        if (!(holds)) {                                                          \
            printf("in_place.c:%d: not so: %s\n", __LINE__, #holds);             \
            exit(1);                                                             \
        }                                                                        \
    } while (0)

static uint64_t state = 0x9e3779b97f4a7c15u;

/* Any number below the end (xorshift). */
static uint32_t below(uint32_t end) {
    state ^= state << 13;
    state ^= state >> 7;
    state ^= state << 17;
    return (uint32_t)(state >> 33) % end;
}

/* Field by field; padding is nobody's. */
static int same_settings(const ceromby_settings *x, const ceromby_settings *y) {
    return x->columns == y->columns && x->rows == y->rows && x->hoppers == y->hoppers && x->sources == y->sources &&
           x->width == y->width && x->length == y->length && x->gap == y->gap && x->travel == y->travel;
}

static int same_floor(const ceromby_floor *x, const ceromby_floor *y) {
    size_t rest = offsetof(ceromby_floor, counters);
    return same_settings(&x->settings, &y->settings) &&
           memcmp((const char *)x + rest, (const char *)y + rest, sizeof *x - rest) == 0;
}

static int same_barge(const ceromby_barge *x, const ceromby_barge *y) {
    int same = x->allowance == y->allowance;
    for (size_t i = 0; i < CEROMBY_FLOORS; i++)
        same = same && same_floor(&x->floors[i], &y->floors[i]);
    return same;
}

static int same_delivery(const ceromby_delivery *x, const ceromby_delivery *y) {
    return x->count == y->count && memcmp(x->numbers, y->numbers, sizeof x->numbers) == 0;
}

static int same_report(const ceromby_report *x, const ceromby_report *y) {
    int same = memcmp(x, y, offsetof(ceromby_report, deliveries)) == 0;
    for (size_t i = 0; i < CEROMBY_MAX_HOPPERS; i++)
        same = same && same_delivery(&x->deliveries[i], &y->deliveries[i]);
    return same;
}

/* How often each number came. */
static unsigned met[256];

static ceromby_settings small(void) {
    ceromby_settings settings;
    memset(&settings, 0, sizeof settings);
    settings.columns = 3;
    settings.rows = 2;
    settings.hoppers = CEROMBY_TILE(5);
    settings.sources = CEROMBY_TILE(0) | CEROMBY_TILE(1) | CEROMBY_TILE(2);
    settings.width = 100;
    settings.length = 30;
    settings.gap = 10;
    settings.travel = 20;
    return settings;
}

static const char *any_name(void) {
    static const char *const names[] = {"A", "B", "C", "D", "E", "F", "G", "H", "ABCDEFGH", "ABCDEFGHI", "nets", ""};
    return names[below(12)];
}

static ceromby_canister any_canister(const ceromby_floor *floor) {
    ceromby_canister canister;
    canister.number = below(20) == 0 ? 0 : floor->counters.last + below(3);
    canister.a = (uint16_t)below(75);
    canister.b = (uint16_t)below(75);
    return canister;
}

/* One call of any sort on a lone floor, both ways. */
static void call(ceromby_floor *floor) {
    static ceromby_floor before, due;
    uint8_t refusal, number;
    uint32_t tile = below(8);
    before = *floor;
    switch (below(9)) {
    case 0: {
        ceromby_canister canister = any_canister(floor);
        ceromby_answer answer = ceromby_book(before, tile, canister);
        number = ceromby_book_in(floor, tile, canister);
        due = answer.floor;
        refusal = answer.refusal;
        break;
    }
    case 1: {
        ceromby_place place = {7, 7};
        uint32_t name = any_canister(floor).number;
        ceromby_placed placed = ceromby_book_anywhere(before, tile, name);
        number = ceromby_book_anywhere_in(floor, tile, name, &place);
        CHECK(place.a == placed.a && place.b == placed.b);
        due = placed.floor;
        refusal = placed.refusal;
        break;
    }
    case 2: {
        static ceromby_booking list[CEROMBY_LONGEST_LIST + 1], other[CEROMBY_LONGEST_LIST + 1];
        size_t length = below(9) == 0 ? CEROMBY_LONGEST_LIST + 1 : below(5);
        for (size_t i = 0; i < length; i++) {
            list[i].tile = below(7);
            list[i].canister = any_canister(floor);
            list[i].answer = 200;
            other[i] = list[i];
        }
        ceromby_answer answer = ceromby_book_list(before, other, length);
        number = ceromby_book_list_in(floor, length == 0 ? NULL : list, length);
        for (size_t i = 0; i < length; i++) {
            CHECK(list[i].answer == other[i].answer);
            met[list[i].answer]++;
        }
        due = answer.floor;
        refusal = answer.refusal;
        break;
    }
    case 3: {
        ceromby_answer answer = ceromby_stop(before, tile);
        number = ceromby_stop_in(floor, tile);
        due = answer.floor;
        refusal = answer.refusal;
        break;
    }
    case 4: {
        ceromby_answer answer = ceromby_repair(before, tile);
        number = ceromby_repair_in(floor, tile);
        due = answer.floor;
        refusal = answer.refusal;
        break;
    }
    case 5: {
        ceromby_name name = ceromby_name_of(any_name());
        ceromby_answer answer;
        switch (below(4)) {
        case 0:
            answer = ceromby_forget(before, name);
            number = ceromby_forget_in(floor, name);
            break;
        case 1:
            answer = ceromby_recall(before, name);
            number = ceromby_recall_in(floor, name);
            break;
        default:
            answer = ceromby_keep(before, name);
            number = ceromby_keep_in(floor, name);
            break;
        }
        due = answer.floor;
        refusal = answer.refusal;
        break;
    }
    case 6: {
        ceromby_reading reading, told = ceromby_read(before, tile);
        ceromby_bounded bounded, latest = ceromby_bound(before);
        CHECK(ceromby_bound_in(floor, &bounded) == latest.refusal && bounded.rounds == latest.rounds);
        CHECK(bounded.connected == latest.connected && bounded.unconnected == latest.unconnected);
        CHECK(latest.refusal != CEROMBY_ACCEPTED || bounded.connected + bounded.unconnected == ceromby_aboard(floor));
        number = ceromby_read_in(floor, tile, &reading);
        CHECK(memcmp(&reading.tile, &told.tile, sizeof told.tile) == 0);
        CHECK(memcmp(reading.members, told.members, sizeof told.members) == 0);
        due = before;
        refusal = told.refusal;
        break;
    }
    case 7: {
        static uint8_t buffer[CEROMBY_LONGEST_IMAGE], other[CEROMBY_LONGEST_IMAGE];
        size_t length, size = below(4) == 0 ? sizeof buffer : below(200);
        memset(buffer, 90, sizeof buffer);
        memset(other, 90, sizeof other);
        ceromby_written written = ceromby_write(before, other, size);
        number = ceromby_write_in(floor, size == 0 ? NULL : buffer, size, &length);
        CHECK(length == written.length && number == written.refusal);
        CHECK(memcmp(buffer, other, sizeof buffer) == 0);
        met[number]++;
        written = ceromby_page(before, other, size);
        number = ceromby_page_in(floor, size == 0 ? NULL : buffer, size, &length);
        CHECK(length == written.length);
        CHECK(memcmp(buffer, other, sizeof buffer) == 0);
        due = before;
        refusal = written.refusal;
        break;
    }
    default: {
        ceromby_report report;
        ceromby_rounded rounded = ceromby_round(before);
        number = ceromby_round_in(floor, &report);
        CHECK(same_report(&report, &rounded.report));
        due = rounded.floor;
        refusal = rounded.refusal;
        break;
    }
    }
    CHECK(number == refusal);
    CHECK(same_floor(floor, &due));
    CHECK(number == 0 || same_floor(floor, &before));
    met[number]++;
}

/* Fresh and load write only when they are accepted: every byte stays. */
static void fresh_and_load(void) {
    static ceromby_floor floor, before;
    uint8_t image[CEROMBY_LONGEST_IMAGE];
    size_t length;
    memset(&floor, 90, sizeof floor);
    memcpy(&before, &floor, sizeof floor);
    ceromby_settings settings = small();
    settings.travel = 30;
    CHECK(ceromby_fresh_in(&floor, settings) == CEROMBY_MEASURE);
    settings.hoppers = 0;
    CHECK(ceromby_fresh_in(&floor, settings) == CEROMBY_SETS);
    settings.rows = 9;
    CHECK(ceromby_fresh_in(&floor, settings) == CEROMBY_GRID);
    image[0] = 20;
    CHECK(ceromby_load_in(&floor, image, 1) == CEROMBY_IMAGE_ENDS);
    CHECK(memcmp(&floor, &before, sizeof floor) == 0);
    CHECK(ceromby_book_in(&floor, 0, any_canister(&before)) == CEROMBY_MALFORMED);
    CHECK(ceromby_fresh_in(&floor, small()) == CEROMBY_ACCEPTED);
    before = ceromby_fresh(small()).floor;
    CHECK(same_floor(&floor, &before));
    CHECK(ceromby_write_in(&floor, image, sizeof image, &length) == CEROMBY_ACCEPTED);
    CHECK(ceromby_load_in(&before, NULL, 0) == CEROMBY_ACCEPTED);
    CHECK(before.settings.columns == 4 && before.settings.hoppers == CEROMBY_TILE(10));
    CHECK(ceromby_load_in(&before, image, length) == CEROMBY_ACCEPTED);
    CHECK(same_floor(&floor, &before));
}

static void plan_and_throughput(void) {
    static ceromby_floor floor;
    static ceromby_plan plan;
    ceromby_throughput record;
    memset(&record, 0, sizeof record);
    CHECK(ceromby_fresh_in(&floor, small()) == CEROMBY_ACCEPTED);
    plan.count = 6;
    for (uint8_t i = 0; i < plan.count; i++) {
        plan.entries[i].label = (uint8_t)(i + 1);
        plan.entries[i].first = i / 2;
        plan.entries[i].tile = i % 3;
    }
    for (unsigned step = 0; step < 300; step++) {
        uint8_t label;
        uint32_t number;
        ceromby_place place;
        ceromby_report report;
        ceromby_fed fed;
        ceromby_offered offered = ceromby_plan_offer(plan);
        CHECK(ceromby_plan_offer_in(&plan, &label) == offered.refusal && label == offered.label);
        if (label == 0)
            label = (uint8_t)below(9);
        ceromby_released released = ceromby_plan_release(plan, floor, label);
        uint8_t refusal = ceromby_plan_release_in(&plan, &floor, label, &number, &place);
        CHECK(refusal == released.refusal && number == released.number);
        CHECK(place.a == released.a && place.b == released.b);
        CHECK(memcmp(&plan, &released.plan, sizeof plan) == 0 && same_floor(&floor, &released.floor));
        met[refusal]++;
        CHECK(ceromby_round_in(&floor, &report) == CEROMBY_ACCEPTED);
        uint32_t count = report.deliveries[0].count + (below(9) == 0 ? 5 : 0);
        ceromby_fed told = ceromby_feed(record, count);
        refusal = ceromby_feed_in(&record, count, &fed);
        CHECK(refusal == told.refusal && fed.kind == told.kind && fed.rounds == told.rounds);
        CHECK(memcmp(&record.last, &told.throughput.last, 3 * sizeof record.last) == 0);
        CHECK(record.rounds == told.throughput.rounds && record.deliveries == told.throughput.deliveries);
        met[refusal]++;
        if (below(50) == 0)
            report.deliveries[3].count = 5;
        ceromby_planned planned = ceromby_plan_report(plan, report);
        refusal = ceromby_plan_report_in(&plan, &report);
        CHECK(refusal == planned.refusal && memcmp(&plan, &planned.plan, sizeof plan) == 0);
        met[refusal]++;
    }
    ceromby_report report = ceromby_round(floor).report;
    plan.entries[5].label = 5;
    CHECK(ceromby_plan_report_in(&plan, &report) == CEROMBY_BAD_LABEL);
    met[CEROMBY_BAD_LABEL]++;
}

static void barge(void) {
    static ceromby_barge barge, before, due;
    for (unsigned i = 0; i < CEROMBY_FLOORS; i++)
        CHECK(ceromby_fresh_in(&barge.floors[i], small()) == CEROMBY_ACCEPTED);
    barge.allowance = 3;
    for (unsigned step = 0; step < 400; step++) {
        uint8_t refusal, number;
        uint32_t floor = below(5), tile = below(8);
        before = barge;
        ceromby_canister canister = any_canister(&barge.floors[floor % CEROMBY_FLOORS]);
        switch (below(5)) {
        case 0: {
            ceromby_barge_answer answer = ceromby_barge_book(before, floor, tile, canister);
            number = ceromby_barge_book_in(&barge, floor, tile, canister);
            due = answer.barge;
            refusal = answer.refusal;
            break;
        }
        case 1: {
            ceromby_place place;
            ceromby_barge_placed placed = ceromby_barge_book_anywhere(before, floor, tile, canister.number);
            number = ceromby_barge_book_anywhere_in(&barge, floor, tile, canister.number, &place);
            CHECK(place.a == placed.a && place.b == placed.b);
            due = placed.barge;
            refusal = placed.refusal;
            break;
        }
        case 2: {
            ceromby_barge_answer answer = ceromby_barge_stop(before, floor, tile);
            number = ceromby_barge_stop_in(&barge, floor, tile);
            due = answer.barge;
            refusal = answer.refusal;
            break;
        }
        case 3: {
            ceromby_barge_answer answer = ceromby_barge_repair(before, floor, tile);
            number = ceromby_barge_repair_in(&barge, floor, tile);
            due = answer.barge;
            refusal = answer.refusal;
            break;
        }
        default: {
            ceromby_report report;
            ceromby_barge_rounded rounded = ceromby_barge_round(before, floor);
            number = ceromby_barge_round_in(&barge, floor, &report);
            CHECK(same_report(&report, &rounded.report));
            due = rounded.barge;
            refusal = rounded.refusal;
            break;
        }
        }
        CHECK(number == refusal && same_barge(&barge, &due));
        CHECK(number == 0 || same_barge(&barge, &before));
        uint32_t count = 0;
        for (unsigned i = 0; i < CEROMBY_FLOORS; i++)
            count += ceromby_aboard(&barge.floors[i]);
        CHECK(count == ceromby_barge_aboard(&barge));
        met[number]++;
    }
}

/* A name has up to eight letters; of a longer text nothing is cut off. */
static void names(void) {
    static ceromby_floor floor;
    CHECK(ceromby_fresh_in(&floor, small()) == CEROMBY_ACCEPTED);
    CHECK(ceromby_keep_in(&floor, ceromby_name_of("ABCDEFGH")) == CEROMBY_ACCEPTED);
    CHECK(floor.layouts[0].name == 0x4142434445464748u);
    CHECK(ceromby_recall_in(&floor, ceromby_name_of("ABCDEFG")) == CEROMBY_NAME_NOT_HELD);
    CHECK(ceromby_recall_in(&floor, ceromby_name_of("ABCDEFGH")) == CEROMBY_ACCEPTED);
    static const char *const bad[] = {"", "ABCDEFGHI", "ABCDEFGHIJKLMNOPQRSTUVWXYZ", "nets", "A B", "\xc3\x84"};
    for (size_t i = 0; i < sizeof bad / sizeof bad[0]; i++)
        CHECK(ceromby_keep_in(&floor, ceromby_name_of(bad[i])) == CEROMBY_BAD_NAME);
}

static void texts(void) {
    unsigned known = 0;
    CHECK(strcmp(ceromby_refusal_text(CEROMBY_ACCEPTED), "accepted") == 0);
    CHECK(strcmp(ceromby_refusal_text(CEROMBY_TOO_CLOSE),
                 "some canister of the tile differs by less than d in both a and b") == 0);
    for (unsigned number = 0; number < 1000; number++)
        known += strcmp(ceromby_refusal_text(number), "unknown") != 0;
    CHECK(known == 30);
}

int main(void) {
    static ceromby_floor floor;
    unsigned calls = 0;
    fresh_and_load();
    for (unsigned list = 0; list < 40; list++) {
        CHECK(ceromby_fresh_in(&floor, small()) == CEROMBY_ACCEPTED);
        for (unsigned i = 0; i < 250; i++, calls++)
            call(&floor);
        CHECK(floor.counters.booked == ceromby_aboard(&floor) + floor.counters.delivered[0]);
    }
    plan_and_throughput();
    barge();
    names();
    texts();
    static const uint8_t due[] = {0,  4,  5,  6,  7,  8,  13, 30, 31, 32, 33, 34, 40,
                                  41, 42, 43, 44, 45, 46, 47, 48, 49, 50};
    for (size_t i = 0; i < sizeof due; i++) {
        if (met[due[i]] == 0)
            printf("refusal %u never came\n", due[i]);
        CHECK(met[due[i]] > 0);
    }
    CHECK(ceromby_version() == CEROMBY_VERSION);
    printf("in place as by value: %u calls\n", calls);
    return 0;
}
