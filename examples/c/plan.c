/* Plans a survey file and prints the tracks to clear:
 *
 *     tools/build foamsickle
 *     gcc -Wall -Wextra -Werror -I include examples/c/plan.c target/staticlib/libfoamsickle.a -o plan-c
 *     ./plan-c samples/p3.survey
 *
 * Exit status 1 for a survey that is refused, 2 for a file that cannot be read. */
#include "foamsickle.h"

#include <inttypes.h>
#include <stdio.h>

static uint8_t text[FOAMSICKLE_SURVEY_ROOM];
static uint8_t groups[FOAMSICKLE_MAX_VERTICES];
static uint32_t firsts[FOAMSICKLE_MAX_EDGES], seconds[FOAMSICKLE_MAX_EDGES], weights[FOAMSICKLE_MAX_EDGES];
static uint32_t owners[FOAMSICKLE_MAX_PAIRS];
static uint8_t others[FOAMSICKLE_MAX_PAIRS];
static uint8_t marks[FOAMSICKLE_MAX_EDGES];
static uint8_t records[FOAMSICKLE_RECORDS_ROOM];

static int refused(const char *what, uint64_t answer) {
    printf("%s refused=%u place=%" PRIu64 "\n", what, FOAMSICKLE_NUMBER(answer), FOAMSICKLE_PLACE(answer));
    return 1;
}

int main(int argc, char **argv) {
    FILE *file = argc == 2 ? fopen(argv[1], "rb") : NULL;
    if (file == NULL) {
        fprintf(stderr, "usage: plan SURVEY-FILE\n");
        return 2;
    }
    size_t length = fread(text, 1, sizeof text, file);
    fclose(file);

    uint64_t size[FOAMSICKLE_READ_FIGURES];
    uint64_t answer = foamsickle_read(text, length, groups, FOAMSICKLE_MAX_VERTICES, firsts, FOAMSICKLE_MAX_EDGES,
                                      seconds, FOAMSICKLE_MAX_EDGES, weights, FOAMSICKLE_MAX_EDGES, owners,
                                      FOAMSICKLE_MAX_PAIRS, others, FOAMSICKLE_MAX_PAIRS, size, FOAMSICKLE_READ_FIGURES);
    if (answer != 0)
        return refused("reading", answer);

    size_t n = (size_t)size[0], m = (size_t)size[1], pairs = (size_t)size[2];
    uint64_t counts[FOAMSICKLE_PLAN_FIGURES];
    answer = foamsickle_plan(groups, n, firsts, m, seconds, m, weights, m, owners, pairs, others, pairs, marks,
                             sizeof marks, records, sizeof records, counts, FOAMSICKLE_PLAN_FIGURES);
    if (answer != 0)
        return refused("planning", answer);

    for (size_t e = 0; e < m; e++)
        if (marks[e] == 2)
            printf("track %zu: %" PRIu32 "-%" PRIu32 " for %" PRIu32 "\n", e, firsts[e], seconds[e], weights[e]);
    printf("%" PRIu64 " sites, cost %" PRIu64 ", no plan costs less than %" PRIu64 ".%d\n", counts[0], counts[1],
           counts[2] / 2, counts[2] % 2 ? 5 : 0);
    return 0;
}
