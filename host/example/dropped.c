/* Every call with its answer dropped, a line each: the compiler must warn of each. check.sh counts. Not run. */

#include "ceromby.h"

void dropped(ceromby_floor f, ceromby_barge b, ceromby_plan p, ceromby_throughput t, ceromby_report r, ceromby_name n);

void dropped(ceromby_floor f, ceromby_barge b, ceromby_plan p, ceromby_throughput t, ceromby_report r, ceromby_name n) {
    ceromby_canister c = {1, 0, 0};
    ceromby_place place;
    ceromby_bounded bounded;
    ceromby_reading reading;
    ceromby_fed fed;
    uint8_t byte;
    uint32_t number;
    size_t length;
    ceromby_fresh(f.settings);
    ceromby_book(f, 0, c);
    ceromby_book_anywhere(f, 0, 1);
    ceromby_book_list(f, NULL, 0);
    ceromby_stop(f, 0);
    ceromby_repair(f, 0);
    ceromby_keep(f, n);
    ceromby_forget(f, n);
    ceromby_recall(f, n);
    ceromby_round(f);
    ceromby_bound(f);
    ceromby_read(f, 0);
    ceromby_load(&byte, 0);
    ceromby_write(f, &byte, 1);
    ceromby_page(f, &byte, 1);
    ceromby_feed(t, 0);
    ceromby_plan_offer(p);
    ceromby_plan_release(p, f, 1);
    ceromby_plan_report(p, r);
    ceromby_barge_book(b, 0, 0, c);
    ceromby_barge_book_anywhere(b, 0, 0, 1);
    ceromby_barge_stop(b, 0, 0);
    ceromby_barge_repair(b, 0, 0);
    ceromby_barge_round(b, 0);
    ceromby_version();
    ceromby_fresh_in(&f, f.settings);
    ceromby_book_in(&f, 0, c);
    ceromby_book_anywhere_in(&f, 0, 1, &place);
    ceromby_book_list_in(&f, NULL, 0);
    ceromby_stop_in(&f, 0);
    ceromby_repair_in(&f, 0);
    ceromby_keep_in(&f, n);
    ceromby_forget_in(&f, n);
    ceromby_recall_in(&f, n);
    ceromby_round_in(&f, &r);
    ceromby_bound_in(&f, &bounded);
    ceromby_read_in(&f, 0, &reading);
    ceromby_load_in(&f, NULL, 0);
    ceromby_write_in(&f, &byte, 1, &length);
    ceromby_page_in(&f, &byte, 1, &length);
    ceromby_feed_in(&t, 0, &fed);
    ceromby_plan_offer_in(&p, &byte);
    ceromby_plan_release_in(&p, &f, 1, &number, &place);
    ceromby_plan_report_in(&p, &r);
    ceromby_barge_book_in(&b, 0, 0, c);
    ceromby_barge_book_anywhere_in(&b, 0, 0, 1, &place);
    ceromby_barge_stop_in(&b, 0, 0);
    ceromby_barge_repair_in(&b, 0, 0);
    ceromby_barge_round_in(&b, 0, &r);
}
