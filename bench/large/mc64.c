/* The least cost of a problem by MC64 of MUMPS (Duff and Koster, SIAM J. Matrix Anal. Appl. 22, 2001): `mc64 FILE`.
 *
 * Its job 4 gives each column a row, so that the sum of the matrix's entries there is greatest. Here a column is a
 * person and a row an object. The entry is how much less than the dearest arc an arc costs, and 1 more. So the least
 * sum of costs is found, and exactly: all sums are whole numbers below 2^53, which doubles have. Job 5, the greatest
 * product, by which MUMPS scales, would round the logarithms that it adds up.
 *
 * There are as many objects as persons: with more of them job 4 need not find the greatest sum. FILE has its arcs by
 * rising persons.
 *
 * Prints the seconds of a processor of the call alone, the peak memory in bytes, and the cost. Built by
 * `cc -O2 -o mc64 mc64.c -ldmumps_seq`, with Debian's libmumps-seq-dev. */
#include <stdint.h>
#include <stdio.h>
#include <stdlib.h>
#include <time.h>

enum { SUM = 4, WORDS = 10 };

/* Of MUMPS' dana_aux.F; its numbers begin at 1. */
void dmumps_mtrans_driver_(const int *job, const int *rows, const int *columns, const int64_t *entries, int64_t *first,
                           int *row, double *value, const int64_t *values, int *matched, int *column_of,
                           const int64_t *numbers_len, int *numbers, const int64_t *doubles_len, double *doubles,
                           int64_t *places, int *control, double *tuning, int *info, int *mumps_info);

typedef struct {
    int persons;
    int64_t arcs, *first;
    int *object;
    double *value;
} problem;

static void *taken(size_t count, size_t size) {
    void *place = calloc(count ? count : 1, size);
    if (!place) exit(6);
    return place;
}

/* The problem, its costs as values yet. */
static problem read_problem(const char *name) {
    FILE *file = fopen(name, "r");
    problem p = {0};
    int64_t room = 0;
    if (!file || fscanf(file, "%d", &p.persons) != 1) exit(2);
    p.first = taken((size_t)p.persons + 2, sizeof *p.first);
    int person, object, before = 1;
    double cost;
    while (fscanf(file, "%d %d %lf", &person, &object, &cost) == 3) {
        if (person < before || person > p.persons || object < 1 || object > p.persons) exit(2);
        if (p.arcs == room) {
            room = room ? 2 * room : 1024;
            p.object = realloc(p.object, (size_t)room * sizeof *p.object);
            p.value = realloc(p.value, (size_t)room * sizeof *p.value);
            if (!p.object || !p.value) exit(6);
        }
        p.object[p.arcs] = object;
        p.value[p.arcs++] = cost;
        p.first[person] = p.arcs + 1;
        before = person;
    }
    fclose(file);
    p.first[0] = 1;
    for (int i = 1; i <= p.persons; i++)
        if (p.first[i] < p.first[i - 1]) p.first[i] = p.first[i - 1];
    return p;
}

/* Turns costs into values, and returns the greatest value of each person, from which the call counts. */
static double *turn(problem *p, double *dearest) {
    double *greatest = taken((size_t)p->persons, sizeof *greatest);
    *dearest = p->value[0];
    for (int64_t k = 1; k < p->arcs; k++)
        if (p->value[k] > *dearest) *dearest = p->value[k];
    for (int i = 0; i < p->persons; i++)
        for (int64_t k = p->first[i] - 1; k < p->first[i + 1] - 1; k++) {
            p->value[k] = *dearest - p->value[k] + 1;
            if (p->value[k] > greatest[i]) greatest[i] = p->value[k];
        }
    return greatest;
}

/* The sum of costs of what was found; ends where it isn't an assignment. The call has left how much less than the
 * person's greatest a value is. */
static double sum_of(const problem *p, const int *person_of, const double *greatest, double dearest) {
    double sum = 0;
    int found = 0;
    for (int i = 0; i < p->persons; i++)
        for (int64_t k = p->first[i] - 1; k < p->first[i + 1] - 1; k++)
            if (person_of[p->object[k] - 1] == i + 1) {
                sum += dearest + 1 - (greatest[i] - p->value[k]);
                found++;
            }
    if (found != p->persons) exit(3);
    return sum;
}

/* The greatest memory that the process has had so far. Not that of getrusage: a process begins there with the peak of
 * the one that started it. */
static long peak(void) {
    FILE *status = fopen("/proc/self/status", "r");
    char line[256];
    long kilobytes = -1;
    while (status && fgets(line, sizeof line, status))
        if (sscanf(line, "VmHWM: %ld kB", &kilobytes) == 1) break;
    if (status) fclose(status);
    return 1024 * kilobytes;
}

int main(int count, char **words) {
    if (count != 2) return 2;
    problem p = read_problem(words[1]);
    int job = SUM, size = p.persons, matched = 0, info[WORDS] = {0}, mumps_info[80] = {0};
    /* No line is printed, and no entry is looked for twice. */
    int control[WORDS] = {-1, -1, -1, -1, 1};
    double tuning[WORDS] = {0}, dearest, *greatest = turn(&p, &dearest);
    /* As many numbers and doubles as job 4 works with. */
    int64_t twice = 2 * (int64_t)size, *places = taken((size_t)size, sizeof *places);
    int *person_of = taken((size_t)size, sizeof *person_of), *numbers = taken((size_t)twice, sizeof *numbers);
    double *doubles = taken((size_t)twice, sizeof *doubles);
    clock_t start = clock();
    dmumps_mtrans_driver_(&job, &size, &size, &p.arcs, p.first, p.object, p.value, &p.arcs, &matched, person_of, &twice,
                          numbers, &twice, doubles, places, control, tuning, info, mumps_info);
    double seconds = (double)(clock() - start) / CLOCKS_PER_SEC;
    if (info[0] < 0 || mumps_info[0] < 0 || matched != size) return 3;
    printf("%.6f %ld %.0f\n", seconds, peak(), sum_of(&p, person_of, greatest, dearest));
    return 0;
}
