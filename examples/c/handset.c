/* Plans and checks the survey of P3 with the handset's two calls, as a handset's program would: bytes alone, four for a
 * number and eight for a count, lowest first. Compares every byte that comes back with P3's numbers:
 *
 *     tools/build foamsickle
 *     gcc -Wall -Wextra -Werror -I include examples/c/handset.c target/staticlib/libfoamsickle.a -o handset
 *     ./handset
 *
 * Exit status 1 where an answer or a byte is another. */
#include "foamsickle.h"

#include <stdio.h>
#include <string.h>

#define RECORD FOAMSICKLE_RECORD_BYTES
#define FREE 0xa5

/* P3: groups 1 0 1; track 0 from 0 to 1 for 3, track 1 from 1 to 2 for 4; no pairs. */
static const uint8_t groups[3] = {1, 0, 1};
static const uint8_t firsts[8] = {0, 0, 0, 0, 1, 0, 0, 0};
static const uint8_t seconds[8] = {1, 0, 0, 0, 2, 0, 0, 0};
static const uint8_t weights[8] = {3, 0, 0, 0, 4, 0, 0, 0};
/* A slice of length 0 has any pointer that is not null. */
static const uint8_t none[1];

static int differing;

static void is(const char *what, int same) {
    if (!same) {
        printf("%s differs\n", what);
        differing++;
    }
}

/* A count at the beginning of eight bytes. */
static uint64_t count(const uint8_t *bytes) {
    uint64_t value = 0;
    for (int i = 7; i >= 0; i--)
        value = value << 8 | bytes[i];
    return value;
}

/* Are these bytes as they were before the call? */
static int untouched(const uint8_t *bytes, size_t length) {
    for (size_t i = 0; i < length; i++)
        if (bytes[i] != FREE)
            return 0;
    return 1;
}

static void is_record(const char *what, const uint8_t *record, uint64_t amount, uint8_t members) {
    uint8_t set[FOAMSICKLE_MEMBER_BYTES] = {members};
    is(what, count(record) == amount && memcmp(record + FOAMSICKLE_VALUE_BYTES, set, sizeof set) == 0);
}

static uint64_t plan(uint8_t *marks, uint8_t *records, uint8_t *result, size_t result_length) {
    return foamsickle_handset_plan(groups, sizeof groups, firsts, sizeof firsts, seconds, sizeof seconds, weights,
                                   sizeof weights, none, 0, none, 0, marks, 3, records, 5 * RECORD, result,
                                   result_length);
}

static uint64_t check(const uint8_t *marks, const uint8_t *records, size_t moats, uint8_t *result) {
    return foamsickle_handset_check(groups, sizeof groups, firsts, sizeof firsts, seconds, sizeof seconds, weights,
                                    sizeof weights, none, 0, none, 0, marks, 2, records, moats * RECORD, result,
                                    FOAMSICKLE_CHECK_BYTES);
}

int main(void) {
    static uint8_t marks[3], records[5 * RECORD], result[FOAMSICKLE_PLAN_BYTES + 1], found[FOAMSICKLE_CHECK_BYTES];
    memset(marks, FREE, sizeof marks);
    memset(records, FREE, sizeof records);
    memset(result, FREE, sizeof result);

    /* Two tracks need two marks, three junctions room for five records: one byte of result too few is 7. */
    is("planning with a short result", plan(marks, records, result, FOAMSICKLE_PLAN_BYTES - 1) == 7);
    is("what planning leaves when it refuses", untouched(marks, sizeof marks) && untouched(records, sizeof records) &&
                                                   untouched(result, sizeof result));

    is("planning", plan(marks, records, result, sizeof result) == 0);
    static const uint64_t figures[FOAMSICKLE_PLAN_FIGURES] = {2, 7, 14, 2, 3};
    static const char *const names[FOAMSICKLE_PLAN_FIGURES] = {"sites", "cost", "bound", "rounds", "moats"};
    for (int i = 0; i < FOAMSICKLE_PLAN_FIGURES; i++)
        is(names[i], count(result + 8 * i) == figures[i]);
    is("marks", marks[0] == 2 && marks[1] == 2);
    is_record("moat 6:0", records, 6, 1 << 0);
    is_record("moat 7:2", records + RECORD, 7, 1 << 2);
    is_record("moat 1:0,1", records + 2 * RECORD, 1, 1 << 0 | 1 << 1);
    is("what planning does not need", untouched(marks + 2, 1) && untouched(records + 3 * RECORD, 2 * RECORD) &&
                                          untouched(result + FOAMSICKLE_PLAN_BYTES, 1));

    memset(found, FREE, sizeof found);
    is("checking", check(marks, records, 3, found) == 0);
    is("what checking finds", memcmp(found, result, sizeof found) == 0);

    /* Track 1 dropped leaves group 1 apart; a mark 3 at track 1 is 10; without the last moat the cost is too high. */
    memset(found, FREE, sizeof found);
    marks[1] = 1;
    is("checking without track 1", check(marks, records, 3, found) == 14 + 256 * 1);
    marks[1] = 3;
    is("checking a mark 3", check(marks, records, 3, found) == 10 + 256 * 1);
    marks[1] = 2;
    is("checking without a moat", check(marks, records, 2, found) == 15);
    is("what checking leaves when it refuses", untouched(found, sizeof found));

    if (differing == 0)
        printf("P3 planned and checked by bytes: %d sites, cost %d, bound %d\n", 2, 7, 14);
    return differing != 0;
}
