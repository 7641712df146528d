/* The crew of examples/crew.arcs, from C. */
#include "sigdorf.h"
#include <stdio.h>

int main(void) {
    /* minutes of a person at a job: cost, person, job */
    const sigdorf_arc arcs[] = {
        {40, 0, 0}, {65, 0, 1}, {30, 0, 2}, {35, 1, 0}, {20, 1, 2}, {50, 1, 3},
        {45, 2, 1}, {60, 2, 3}, {55, 3, 0}, {70, 3, 1}, {40, 3, 3},
    };
    uint32_t choice[4] = {0}, hall_objects[4] = {0};
    int64_t prices[4] = {0};
    sigdorf_found found = {0};
    int32_t status = sigdorf_solve(4, 0, arcs, sizeof arcs / sizeof *arcs, NULL, 0, SIGDORF_USUAL_BIDS, choice, 4, prices, 4,
                                   hall_objects, 4, &found);
    if (status != SIGDORF_OPTIMAL) {
        printf("status %d\n", (int)status);
        return 1;
    }
    printf("%lld minutes\n", (long long)found.cost);
    for (int person = 0; person < 4; person++)
        printf("person %d takes job %u\n", person, (unsigned)arcs[choice[person]].object);
    return 0;
}
