/* Every call with NULL and length 0 for slices that are empty: the answers are those of empty slices. Then the words of
 * every number, at place 5 and one more, a line each, for comparison with those of the other languages. */
#include "foamsickle_survey.h"

static int failed;

static void is(const char *what, uint64_t answer, uint64_t want) {
    if (answer != want) {
        printf("%s with NULL answers %llu, not %llu\n", what, (unsigned long long)answer, (unsigned long long)want);
        failed = 1;
    }
}

#define NONE NULL, 0
/* One junction without a group, and nothing else. */
#define LONE group, 1, NONE, NONE, NONE, NONE, NONE

int main(int argc, char **argv) {
    (void)argv;
    const uint8_t group[1] = {0};
    uint8_t records[FOAMSICKLE_RECORD_BYTES], out[FOAMSICKLE_DUAL_ROOM], report[FOAMSICKLE_REPORT_BYTES] = {0};
    uint64_t counts[FOAMSICKLE_WHY_FIGURES];
    char words[128];
    if (argc > 1) {
        for (uint64_t number = 0; number < 32; number++)
            for (uint64_t place = 0; place < 6; place += 5) {
                foamsickle_words(number + 256 * place, words, sizeof words);
                puts(words);
            }
        return 0;
    }
    is("foamsickle_read", foamsickle_read(NONE, NONE, NONE, NONE, NONE, NONE, NONE, NONE), 16);
    is("foamsickle_read of a count", foamsickle_read((const uint8_t *)"nodes=1\n", 8, NONE, NONE, NONE, NONE, NONE, NONE, NONE), 7);
    is("foamsickle_read_stp", foamsickle_read_stp(NONE, NONE, NONE, NONE, NONE, NONE), 20);
    is("foamsickle_plan of nothing", foamsickle_plan(NONE, NONE, NONE, NONE, NONE, NONE, NONE, NONE, NONE), 1);
    is("foamsickle_plan with nothing lent", foamsickle_plan(LONE, NONE, NONE, NONE), 7);
    is("foamsickle_plan", foamsickle_plan(LONE, NONE, records, sizeof records, counts, FOAMSICKLE_PLAN_FIGURES), 0);
    is("foamsickle_grow", foamsickle_grow(LONE, NONE, records, sizeof records, counts, FOAMSICKLE_PLAN_FIGURES), 0);
    is("foamsickle_drop", foamsickle_drop(LONE, NONE, counts, FOAMSICKLE_DROP_FIGURES), 0);
    is("foamsickle_why", foamsickle_why(LONE, 0, NONE, counts, FOAMSICKLE_WHY_FIGURES), 19);
    is("foamsickle_closed", foamsickle_closed(LONE, NONE, NONE), 0);
    is("foamsickle_check", foamsickle_check(LONE, NONE, NONE, counts, FOAMSICKLE_CHECK_FIGURES), 0);
    is("foamsickle_verify", foamsickle_verify(NONE, NONE), 16);
    is("foamsickle_print_dual", foamsickle_print_dual(NONE, NONE, NONE), 9);
    is("foamsickle_print_plan with nothing lent", foamsickle_print_plan(0, 0, 0, 0, NONE, NONE, NONE, NONE), 7);
    is("foamsickle_print_plan", foamsickle_print_plan(0, 0, 0, 0, NONE, NONE, out, sizeof out, counts, 1), 0);
    is("foamsickle_print_survey with nothing lent", foamsickle_print_survey(NONE, NONE, NONE, NONE, NONE, NONE, NONE, NONE), 7);
    is("foamsickle_print_survey", foamsickle_print_survey(NONE, NONE, NONE, NONE, NONE, NONE, out, sizeof out, counts, 1), 0);
    is("foamsickle_pack_table", foamsickle_pack_table(NONE, NONE), 0);
    is("foamsickle_unpack_table", foamsickle_unpack_table(NONE, NONE), 0);
    is("foamsickle_season_add with nothing lent", foamsickle_season_add(NONE, LONE), 7);
    is("foamsickle_season_add", foamsickle_season_add(report, sizeof report, LONE), 0);
    is("foamsickle_season_print", foamsickle_season_print(NONE, NONE, NONE), 7);
    is("foamsickle_handset_plan", foamsickle_handset_plan(LONE, NONE, records, sizeof records, out, FOAMSICKLE_PLAN_BYTES), 0);
    is("foamsickle_handset_check", foamsickle_handset_check(LONE, NONE, NONE, out, FOAMSICKLE_CHECK_BYTES), 0);
    is("foamsickle_version", foamsickle_version(), FOAMSICKLE_VERSION);
    return failed;
}
