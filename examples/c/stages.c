/* Plans a survey file in two stages, with every call over foamsickle_survey.h's structs: grows, drops, checks what is left
 * and asks why each kept track is there:
 *
 *     tools/build foamsickle
 *     gcc -Wall -Wextra -Werror -I include examples/c/stages.c target/staticlib/libfoamsickle.a -o stages
 *     ./stages samples/p3.survey
 *
 * Exit status 1 for a survey that is refused, 2 for a file that cannot be read. */
#include "foamsickle_survey.h"

#include <inttypes.h>
#include <stdio.h>

static uint8_t text[FOAMSICKLE_SURVEY_ROOM];
static struct foamsickle_survey survey;
static struct foamsickle_planned planned;
static struct foamsickle_reason reason;

static int refused(const char *what, uint64_t answer) {
    char words[128];
    foamsickle_words(answer, words, sizeof words);
    printf("%s: %s\n", what, words);
    return 1;
}

int main(int argc, char **argv) {
    FILE *file = argc == 2 ? fopen(argv[1], "rb") : NULL;
    if (file == NULL) {
        fprintf(stderr, "usage: stages SURVEY-FILE\n");
        return 2;
    }
    size_t length = fread(text, 1, sizeof text, file);
    fclose(file);

    uint64_t answer = foamsickle_survey_read(&survey, text, length);
    if (answer != 0)
        return refused("reading", answer);
    answer = foamsickle_survey_grow(&survey, &planned);
    if (answer != 0)
        return refused("growing", answer);
    printf("%" PRIu64 " tracks picked, %" PRIu64 " moats, no plan costs less than %" PRIu64 "\n", planned.rounds,
           planned.moats, foamsickle_least_cost(planned.bound));

    /* Whoever knows better changes marks 0 and 1 here. */
    answer = foamsickle_survey_drop(&survey, &planned);
    if (answer != 0)
        return refused("dropping", answer);
    struct foamsickle_found found;
    answer = foamsickle_survey_check(&survey, &planned, &found);
    if (answer != 0)
        return refused("checking", answer);
    printf("checked: %" PRIu64 " sites, cost %" PRIu64 "\n", found.sites, found.cost);

    for (uint32_t e = 0; e < survey.edges; e++) {
        if (planned.marks[e] != 2)
            continue;
        answer = foamsickle_survey_why(&survey, e, &reason);
        if (answer != 0)
            return refused("asking why", answer);
        printf("track %" PRIu32 ": for sites %" PRIu64 " and %" PRIu64 " of group %" PRIu64 "\n", e, reason.from, reason.to,
               reason.group);
    }
    return 0;
}
