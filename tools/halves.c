/* Planning's two halves as one program, for the commands grow and drop:
 *
 *     halves grow < SURVEY
 *     halves drop TRACK.. < SURVEY
 *
 * Reading, growing, dropping and the moat lines are the proved library's. Growing prints the lines of a plan, with cost 0
 * and `pick=` for each picked track in place of `keep=`. Dropping takes the numbers of picked tracks and prints sites,
 * cost and a line `keep=` for each that is kept. A refusal is its two lines.
 * Exit status 2 for other words, and where standard output cannot be written. */
#include "foamsickle_survey.h"

#include <inttypes.h>
#include <stdio.h>
#include <string.h>

static uint8_t text[FOAMSICKLE_SURVEY_ROOM], line[FOAMSICKLE_DUAL_ROOM];
static struct foamsickle_survey survey;
static struct foamsickle_planned planned;

static void refused(uint64_t answer) {
    printf("refused=%u\nplace=%" PRIu64 "\n", FOAMSICKLE_NUMBER(answer), FOAMSICKLE_PLACE(answer));
}

static void print_marked(const char *key, uint8_t mark) {
    for (size_t e = 0; e < survey.edges; e++)
        if (planned.marks[e] == mark)
            printf("%s=%zu\n", key, e);
}

static void grow(void) {
    uint64_t answer = foamsickle_survey_grow(&survey, &planned), length;
    if (answer != 0) {
        refused(answer);
        return;
    }
    printf("sites=%" PRIu64 "\ncost=%" PRIu64 "\nbound=%" PRIu64 "\nrounds=%" PRIu64 "\n", planned.sites, planned.cost,
           planned.bound, planned.rounds);
    print_marked("pick", 1);
    for (size_t i = 0; i < planned.moats; i++) {
        foamsickle_print_dual(planned.records + i * FOAMSICKLE_RECORD_BYTES, FOAMSICKLE_RECORD_BYTES, line, sizeof line,
                              &length, 1);
        fwrite(line, 1, (size_t)length, stdout);
    }
}

/* The number that a word says: one to seven digits, no leading zero; or -1. */
static long number(const char *word) {
    size_t length = strlen(word);
    long value = 0;
    if (length == 0 || length > 7 || strspn(word, "0123456789") != length || (word[0] == '0' && length > 1))
        return -1;
    for (size_t i = 0; i < length; i++)
        value = 10 * value + (word[i] - '0');
    return value;
}

static void drop(char **words, int count) {
    for (int i = 0; i < count; i++) {
        uint64_t track = (uint64_t)number(words[i]);
        if (track >= survey.edges) {
            refused(19 + 256 * track);
            return;
        }
        planned.marks[track] = 1;
    }
    uint64_t answer = foamsickle_survey_drop(&survey, &planned);
    if (answer != 0) {
        refused(answer);
        return;
    }
    printf("sites=%" PRIu64 "\ncost=%" PRIu64 "\n", planned.sites, planned.cost);
    print_marked("keep", 2);
}

int main(int argc, char **argv) {
    int growing = argc == 2 && strcmp(argv[1], "grow") == 0, good = growing || (argc >= 2 && strcmp(argv[1], "drop") == 0);
    for (int i = 2; i < argc; i++)
        good = good && number(argv[i]) >= 0;
    if (!good) {
        fprintf(stderr, "halves: grow, or drop with track numbers, is wanted\n");
        return 2;
    }
    uint64_t answer = foamsickle_survey_read(&survey, text, fread(text, 1, sizeof text, stdin));
    if (answer != 0)
        refused(answer);
    else if (growing)
        grow();
    else
        drop(argv + 2, argc - 2);
    return fflush(stdout) != 0 || ferror(stdin) ? 2 : 0;
}
