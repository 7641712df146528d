/* The public names of the proved calls, which `link` gives others: here a null pointer of length 0 becomes one that isn't
 * null, and nothing else is done. Not proved. */
#include "nulls.h"
#include "sigdorf.h"

int32_t sigdorf_solve_proved(uint32_t, uint32_t, const sigdorf_arc *, size_t, const int64_t *, size_t, uint64_t,
                             uint32_t *, size_t, int64_t *, size_t, uint32_t *, size_t, sigdorf_found *);
int32_t sigdorf_solve_by_messages_proved(uint32_t, uint32_t, const sigdorf_arc *, size_t, const int64_t *, size_t,
                                         uint64_t, uint32_t *, size_t, int64_t *, size_t, uint32_t *, size_t,
                                         sigdorf_found *);
int32_t sigdorf_solve_dense_proved(uint32_t, uint32_t, const int64_t *, size_t, size_t, int64_t, const int64_t *,
                                   size_t, uint64_t, uint32_t *, size_t, int64_t *, size_t, uint32_t *, size_t,
                                   sigdorf_found *);
int32_t sigdorf_check_proved(uint32_t, uint32_t, const sigdorf_arc *, size_t, const uint32_t *, size_t, const int64_t *,
                             size_t, int64_t, sigdorf_found *);
int32_t sigdorf_check_hall_proved(uint32_t, uint32_t, const sigdorf_arc *, size_t, const uint32_t *, size_t,
                                  const uint32_t *, size_t, sigdorf_found *);

int32_t sigdorf_solve(uint32_t persons, uint32_t objects, const sigdorf_arc *arcs, size_t arcs_len,
                      const int64_t *start, size_t start_len, uint64_t bids, uint32_t *choice, size_t choice_len,
                      int64_t *prices, size_t prices_len, uint32_t *hall_objects, size_t hall_objects_len,
                      sigdorf_found *found) {
    return sigdorf_solve_proved(persons, objects, GIVEN(arcs, arcs_len), GIVEN(start, start_len), bids,
                                GIVEN(choice, choice_len), GIVEN(prices, prices_len),
                                GIVEN(hall_objects, hall_objects_len), found);
}

int32_t sigdorf_solve_by_messages(uint32_t persons, uint32_t objects, const sigdorf_arc *arcs, size_t arcs_len,
                                  const int64_t *start, size_t start_len, uint64_t bids, uint32_t *choice,
                                  size_t choice_len, int64_t *prices, size_t prices_len, uint32_t *hall_objects,
                                  size_t hall_objects_len, sigdorf_found *found) {
    return sigdorf_solve_by_messages_proved(persons, objects, GIVEN(arcs, arcs_len), GIVEN(start, start_len), bids,
                                            GIVEN(choice, choice_len), GIVEN(prices, prices_len),
                                            GIVEN(hall_objects, hall_objects_len), found);
}

int32_t sigdorf_solve_dense(uint32_t persons, uint32_t objects, const int64_t *costs, size_t costs_len, size_t stride,
                            int64_t none, const int64_t *start, size_t start_len, uint64_t bids, uint32_t *choice,
                            size_t choice_len, int64_t *prices, size_t prices_len, uint32_t *hall_objects,
                            size_t hall_objects_len, sigdorf_found *found) {
    return sigdorf_solve_dense_proved(persons, objects, GIVEN(costs, costs_len), stride, none, GIVEN(start, start_len),
                                      bids, GIVEN(choice, choice_len), GIVEN(prices, prices_len),
                                      GIVEN(hall_objects, hall_objects_len), found);
}

int32_t sigdorf_check(uint32_t persons, uint32_t objects, const sigdorf_arc *arcs, size_t arcs_len,
                      const uint32_t *choice, size_t choice_len, const int64_t *prices, size_t prices_len, int64_t cost,
                      sigdorf_found *found) {
    return sigdorf_check_proved(persons, objects, GIVEN(arcs, arcs_len), GIVEN(choice, choice_len),
                                GIVEN(prices, prices_len), cost, found);
}

int32_t sigdorf_check_hall(uint32_t persons, uint32_t objects, const sigdorf_arc *arcs, size_t arcs_len,
                           const uint32_t *hall_persons, size_t hall_persons_len, const uint32_t *hall_objects,
                           size_t hall_objects_len, sigdorf_found *found) {
    return sigdorf_check_hall_proved(persons, objects, GIVEN(arcs, arcs_len), GIVEN(hall_persons, hall_persons_len),
                                     GIVEN(hall_objects, hall_objects_len), found);
}
