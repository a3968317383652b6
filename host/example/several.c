/* Nine calls in one function. By value the compiler adds up the answers that are kept; in place, where each call is written
   once and may well be inlined, it must not. Fails if the calls in place take more stack than one call may. */

#include "painted.h"

#include "ceromby.h"

static ceromby_floor floor_;
static ceromby_report report;
static ceromby_place place;
static ceromby_canister canister = {2, 300, 0};
static volatile unsigned sink;

static void nothing(void) { sink = 1; }

static void in_place(void) {
    sink = ceromby_load_in(&floor_, NULL, 0);
    sink = ceromby_book_anywhere_in(&floor_, 4, 1, &place);
    sink = ceromby_book_in(&floor_, 4, canister);
    sink = ceromby_stop_in(&floor_, 5);
    sink = ceromby_repair_in(&floor_, 5);
    sink = ceromby_keep_in(&floor_, ceromby_name_of("ALL"));
    sink = ceromby_recall_in(&floor_, ceromby_name_of("ALL"));
    sink = ceromby_forget_in(&floor_, ceromby_name_of("ALL"));
    sink = ceromby_round_in(&floor_, &report);
}

static void by_value(void) {
    uint8_t none = 0;
    ceromby_answer loaded = ceromby_load(&none, 0);
    ceromby_placed placed = ceromby_book_anywhere(loaded.floor, 4, 1);
    ceromby_answer booked = ceromby_book(placed.floor, 4, canister);
    ceromby_answer stopped = ceromby_stop(booked.floor, 5);
    ceromby_answer repaired = ceromby_repair(stopped.floor, 5);
    ceromby_answer kept = ceromby_keep(repaired.floor, ceromby_name_of("ALL"));
    ceromby_answer recalled = ceromby_recall(kept.floor, ceromby_name_of("ALL"));
    ceromby_answer forgot = ceromby_forget(recalled.floor, ceromby_name_of("ALL"));
    ceromby_rounded rounded = ceromby_round(forgot.floor);
    sink = rounded.refusal;
}

int main(void) {
    size_t base = depth(nothing);
    size_t lent = depth(in_place) - base, kept = depth(by_value) - base;
    if (lent > CEROMBY_STACK) {
        printf("nine calls in place take %zu bytes of stack in one function\n", lent);
        return 1;
    }
    printf("nine calls in one function took %zu KB by value, %zu in place\n", (kept + 999) / 1000, (lent + 999) / 1000);
    return 0;
}
