// The header from C++: the standard floor, a layout with a name of eight letters, an image.

#include <cstddef>
#include <cstdint>
#include <cstdio>
#include <vector>

#include "ceromby.h"

namespace {

bool accepted(const char *what, unsigned refusal) {
    std::printf("%s: %u, %s\n", what, refusal, ceromby_refusal_text(refusal));
    return refusal == CEROMBY_ACCEPTED;
}

} // namespace

int main() {
    static ceromby_floor floor, again;
    ceromby_place place{};
    ceromby_report report{};
    if (!accepted("load nothing", ceromby_load_in(&floor, nullptr, 0)))
        return 1;
    if (!accepted("book canister 1", ceromby_book_anywhere_in(&floor, 4, 1, &place)))
        return 1;
    std::printf("at (%u, %u)\n", place.a, place.b);
    accepted("keep ABCDEFGH", ceromby_keep_in(&floor, ceromby_name_of("ABCDEFGH")));
    accepted("keep ABCDEFGHI", ceromby_keep_in(&floor, ceromby_name_of("ABCDEFGHI")));
    accepted("stop the hopper", ceromby_stop_in(&floor, 10));
    unsigned round = 0;
    while (ceromby_aboard(&floor) > 0 && ceromby_round_in(&floor, &report) == CEROMBY_ACCEPTED)
        round++;
    std::printf("round %u: delivered %u\n", round, static_cast<unsigned>(report.deliveries[0].numbers[0]));
    std::vector<std::uint8_t> image(CEROMBY_LONGEST_IMAGE);
    std::size_t length = 0;
    if (!accepted("write", ceromby_write_in(&floor, image.data(), image.size(), &length)))
        return 1;
    image.resize(length);
    if (!accepted("load", ceromby_load_in(&again, image.data(), image.size())))
        return 1;
    std::printf("%zu bytes, %u delivered\n", image.size(), static_cast<unsigned>(again.counters.delivered[0]));
    return 0;
}
