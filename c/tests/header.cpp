// The header as C++: the crew of the README, solved and checked, so that the names are linked as C's. The last line is `N passed, M failed`.
#include "sigdorf.h"
#include <cstdint>
#include <cstdio>
#include <cstring>
#include <vector>

int main() {
    const std::vector<sigdorf_arc> arcs = {{40, 0, 0}, {65, 0, 1}, {30, 0, 2}, {35, 1, 0}, {20, 1, 2}, {50, 1, 3},
                                           {45, 2, 1}, {60, 2, 3}, {55, 3, 0}, {70, 3, 1}, {40, 3, 3}};
    std::vector<std::uint32_t> choice(4), hall(4);
    std::vector<std::int64_t> prices(4);
    sigdorf_found found = sigdorf_found();
    int failed = sigdorf_solve(4, 0, arcs.data(), arcs.size(), nullptr, 0, SIGDORF_USUAL_BIDS, choice.data(), choice.size(), prices.data(),
                               prices.size(), hall.data(), hall.size(), &found) != SIGDORF_OPTIMAL;
    failed += found.cost != 145;
    failed += sigdorf_solve_by_messages(4, 0, arcs.data(), arcs.size(), nullptr, 0, SIGDORF_USUAL_BIDS, choice.data(), choice.size(), prices.data(),
                                        prices.size(), hall.data(), hall.size(), &found) != SIGDORF_OPTIMAL;
    failed += sigdorf_check(4, 0, arcs.data(), arcs.size(), choice.data(), choice.size(), prices.data(), prices.size(), 145, &found) != SIGDORF_OPTIMAL;
    const std::vector<double> table = {0.1, 0.2, 0.1, 0.4};
    sigdorf_found_f64 exact = sigdorf_found_f64();
    failed += sigdorf_solve_dense_f64(2, 2, table.data(), table.size(), 2, SIGDORF_USUAL_BIDS, choice.data(), 2,
                                      hall.data(), 2, &exact) != SIGDORF_OPTIMAL || choice[0] != 1;
    failed += sigdorf_match(2, 2, table.data(), table.size(), 2, 0.15, SIGDORF_USUAL_BIDS, choice.data(), 2,
                            &exact) != SIGDORF_OPTIMAL || choice[1] != SIGDORF_FREE || exact.cost != 0.1;
    const sigdorf_table_f64 tables[] = {{2, 2, table.data(), table.size(), 2, 0.15}, {1, 2, table.data(), 2, 2, 1.0}};
    std::vector<std::uint32_t> choices(3);
    std::vector<std::int32_t> statuses(2);
    std::vector<sigdorf_found_f64> founds(2);
    failed += sigdorf_match_many(tables, 2, SIGDORF_USUAL_BIDS, choices.data(), choices.size(), statuses.data(), statuses.size(),
                                 founds.data(), founds.size()) != SIGDORF_OPTIMAL || choices[1] != SIGDORF_FREE || choices[2] != 0;
    sigdorf_watch watch = {sigdorf_until(60), -1, -1, 1, 0};
    failed += sigdorf_solve_watched(4, 0, arcs.data(), arcs.size(), nullptr, 0, SIGDORF_USUAL_BIDS, &watch, choice.data(), 4,
                                    prices.data(), 4, hall.data(), 4, &found) != SIGDORF_OPTIMAL || found.cost != 145 || watch.stopped;
    const std::vector<std::int64_t> whole = {1, 2, 1, 4};
    failed += sigdorf_solve_dense_watched(2, 2, whole.data(), 4, 2, -1, nullptr, 0, SIGDORF_USUAL_BIDS, &watch, choice.data(), 2,
                                          prices.data(), 2, hall.data(), 2, &found) != SIGDORF_OPTIMAL || found.cost != 3;
    failed += sigdorf_solve_dense_f64_watched(2, 2, table.data(), table.size(), 2, SIGDORF_USUAL_BIDS, &watch, choice.data(), 2,
                                              hall.data(), 2, &exact) != SIGDORF_OPTIMAL || choice[0] != 1;
    failed += sigdorf_match_watched(2, 2, table.data(), table.size(), 2, 0.15, SIGDORF_USUAL_BIDS, &watch, choice.data(), 2,
                                    &exact) != SIGDORF_OPTIMAL || choice[1] != SIGDORF_FREE;
    failed += sigdorf_match_many_watched(tables, 2, SIGDORF_USUAL_BIDS, &watch, choices.data(), choices.size(), statuses.data(), statuses.size(),
                                         founds.data(), founds.size()) != SIGDORF_OPTIMAL || choices[2] != 0;
    failed += sizeof(sigdorf_watch) != 24 || sizeof(sigdorf_progress) != 40 || sizeof(sigdorf_found) != 64 || sizeof(sigdorf_found_f64) != 64;
    char version[16];
    std::snprintf(version, sizeof version, "%d.%d", SIGDORF_VERSION_MAJOR, SIGDORF_VERSION_MINOR);
    failed += std::strcmp(version, SIGDORF_VERSION) != 0;
    std::printf("%d passed, %d failed\n", 14 - failed, failed);
    return failed != 0;
}
