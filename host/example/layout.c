/* Prints the size and field offsets of every struct of the header. */

#include <stdio.h>

#include "ceromby.h"

#define SIZE(type) printf(#type " %zu\n", sizeof(ceromby_##type))
#define FIELD(type, field) printf(#type "." #field " %zu\n", offsetof(ceromby_##type, field))

static void values(void) {
    SIZE(canister);
    FIELD(canister, number);
    FIELD(canister, a);
    FIELD(canister, b);
    SIZE(booking);
    FIELD(booking, tile);
    FIELD(booking, canister);
    FIELD(booking, answer);
    SIZE(side);
    FIELD(side, code);
    SIZE(tile);
    FIELD(tile, running);
    FIELD(tile, distance);
    FIELD(tile, next);
    FIELD(tile, token);
    FIELD(tile, count);
    SIZE(settings);
    FIELD(settings, columns);
    FIELD(settings, rows);
    FIELD(settings, hoppers);
    FIELD(settings, sources);
    FIELD(settings, width);
    FIELD(settings, length);
    FIELD(settings, gap);
    FIELD(settings, travel);
    SIZE(counters);
    FIELD(counters, last);
    FIELD(counters, booked);
    FIELD(counters, delivered);
    SIZE(name);
    FIELD(name, letters);
    SIZE(layout);
    FIELD(layout, name);
    FIELD(layout, set);
    SIZE(floor);
    FIELD(floor, settings);
    FIELD(floor, counters);
    FIELD(floor, tiles);
    FIELD(floor, canisters);
    FIELD(floor, layouts);
}

static void answers(void) {
    SIZE(delivery);
    FIELD(delivery, numbers);
    FIELD(delivery, count);
    SIZE(report);
    FIELD(report, grants);
    FIELD(report, reasons);
    FIELD(report, missing);
    FIELD(report, deliveries);
    SIZE(answer);
    FIELD(answer, floor);
    FIELD(answer, refusal);
    SIZE(placed);
    FIELD(placed, floor);
    FIELD(placed, a);
    FIELD(placed, b);
    FIELD(placed, refusal);
    SIZE(rounded);
    FIELD(rounded, floor);
    FIELD(rounded, report);
    FIELD(rounded, refusal);
    SIZE(reading);
    FIELD(reading, refusal);
    FIELD(reading, tile);
    FIELD(reading, members);
    SIZE(bounded);
    FIELD(bounded, rounds);
    FIELD(bounded, connected);
    FIELD(bounded, unconnected);
    FIELD(bounded, refusal);
    SIZE(written);
    FIELD(written, refusal);
    FIELD(written, length);
}

static void throughput(void) {
    SIZE(throughput);
    FIELD(throughput, last);
    FIELD(throughput, least);
    FIELD(throughput, greatest);
    FIELD(throughput, rounds);
    FIELD(throughput, deliveries);
    FIELD(throughput, closed);
    SIZE(fed);
    FIELD(fed, throughput);
    FIELD(fed, rate);
    FIELD(fed, rounds);
    FIELD(fed, kind);
    FIELD(fed, refusal);
}

static void plan(void) {
    SIZE(entry);
    FIELD(entry, tile);
    FIELD(entry, number);
    FIELD(entry, label);
    FIELD(entry, first);
    FIELD(entry, second);
    FIELD(entry, stage);
    SIZE(plan);
    FIELD(plan, entries);
    FIELD(plan, count);
    SIZE(offered);
    FIELD(offered, label);
    FIELD(offered, refusal);
    SIZE(planned);
    FIELD(planned, plan);
    FIELD(planned, refusal);
    SIZE(released);
    FIELD(released, floor);
    FIELD(released, plan);
    FIELD(released, number);
    FIELD(released, a);
    FIELD(released, b);
    FIELD(released, refusal);
}

static void barge(void) {
    SIZE(barge);
    FIELD(barge, floors);
    FIELD(barge, allowance);
    SIZE(barge_answer);
    FIELD(barge_answer, barge);
    FIELD(barge_answer, refusal);
    SIZE(barge_placed);
    FIELD(barge_placed, barge);
    FIELD(barge_placed, a);
    FIELD(barge_placed, b);
    FIELD(barge_placed, refusal);
    SIZE(barge_rounded);
    FIELD(barge_rounded, barge);
    FIELD(barge_rounded, report);
    FIELD(barge_rounded, refusal);
}

int main(void) {
    values();
    answers();
    throughput();
    plan();
    barge();
    return 0;
}
