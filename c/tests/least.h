/* The least cost by another method than the library's. */
#ifndef LEAST_H
#define LEAST_H

#include <stdint.h>
#include <stdlib.h>

/* What costs that much is no arc. */
static const int64_t NONE = INT64_C(1) << 60;

/* The least cost of a table that has an assignment, by cheapest paths, row by row, with a price of each row and column
 * (Kuhn 1955; Jonker and Volgenant 1987). Each sum is below NONE. */
static int64_t least_cost(const int64_t *costs, uint32_t rows, uint32_t columns, size_t stride) {
    int64_t *of_row = calloc(rows + 1, sizeof *of_row), *of_column = calloc(columns + 1, sizeof *of_column);
    int64_t *near = calloc(columns + 1, sizeof *near), sum = 0;
    uint32_t *holder = calloc(columns + 1, sizeof *holder), *before = calloc(columns + 1, sizeof *before);
    unsigned char *is_reached = malloc(columns + 1);
    for (uint32_t row = 1; row <= rows; row++) {
        uint32_t here = 0;
        for (uint32_t j = 0; j <= columns; j++) near[j] = INT64_MAX, is_reached[j] = 0;
        holder[0] = row;
        do {
            uint32_t next = 0;
            int64_t step = INT64_MAX;
            is_reached[here] = 1;
            for (uint32_t j = 1; j <= columns; j++) {
                if (is_reached[j]) continue;
                int64_t way = costs[(holder[here] - 1) * stride + j - 1] - of_row[holder[here]] - of_column[j];
                if (way < near[j]) near[j] = way, before[j] = here;
                if (near[j] < step) step = near[j], next = j;
            }
            for (uint32_t j = 0; j <= columns; j++) {
                if (is_reached[j])
                    of_row[holder[j]] += step, of_column[j] -= step;
                else if (j > 0)
                    near[j] -= step;
            }
            here = next;
        } while (holder[here] != 0);
        for (; here != 0; here = before[here]) holder[here] = holder[before[here]];
    }
    for (uint32_t j = 1; j <= columns; j++)
        if (holder[j] != 0) sum += costs[(holder[j] - 1) * stride + j - 1];
    free(of_row), free(of_column), free(near), free(holder), free(before), free(is_reached);
    return sum;
}

#endif
