/* Foamsickle for C and C++ over one struct for a survey: each function makes its call of foamsickle.h with the slices of
 * the structs, in their order, and answers what it answers. Nothing is allocated; the structs are large (26 KiB and
 * 58 KiB), so keep them static or on the heap where stacks are small. */
#ifndef FOAMSICKLE_SURVEY_H
#define FOAMSICKLE_SURVEY_H

#include "foamsickle.h"

#include <stdio.h>

/* A survey: how many junctions, tracks and pairs there are, each at most what its arrays hold, and these. */
struct foamsickle_survey {
    size_t vertices, edges, pairs;
    uint8_t groups[FOAMSICKLE_MAX_VERTICES];
    uint32_t firsts[FOAMSICKLE_MAX_EDGES], seconds[FOAMSICKLE_MAX_EDGES], weights[FOAMSICKLE_MAX_EDGES];
    uint32_t owners[FOAMSICKLE_MAX_PAIRS];
    uint8_t others[FOAMSICKLE_MAX_PAIRS];
};

/* What planning, growing or dropping left: figures, a mark for each track, the moat records. */
struct foamsickle_planned {
    uint64_t sites, cost, bound, rounds, moats;
    uint8_t marks[FOAMSICKLE_MAX_EDGES];
    uint8_t records[FOAMSICKLE_RECORDS_ROOM];
};

/* What the checker found. */
struct foamsickle_found {
    uint64_t sites, cost, bound;
};

/* Why a track has its mark; foamsickle_why says which entries have a meaning for which mark. */
struct foamsickle_reason {
    uint64_t mark, group, from, to, tracks, round;
    uint32_t route[FOAMSICKLE_MAX_ROUTE];
};

#define FOAMSICKLE_OF_SURVEY(s) \
    (s)->groups, (s)->vertices, (s)->firsts, (s)->edges, (s)->seconds, (s)->edges, (s)->weights, (s)->edges, \
        (s)->owners, (s)->pairs, (s)->others, (s)->pairs

/* Reads a survey's text. */
static inline uint64_t foamsickle_survey_read(struct foamsickle_survey *s, const uint8_t *text, size_t text_length) {
    uint64_t counts[FOAMSICKLE_READ_FIGURES];
    uint64_t answer = foamsickle_read(text, text_length, s->groups, FOAMSICKLE_MAX_VERTICES, s->firsts,
                                      FOAMSICKLE_MAX_EDGES, s->seconds, FOAMSICKLE_MAX_EDGES, s->weights,
                                      FOAMSICKLE_MAX_EDGES, s->owners, FOAMSICKLE_MAX_PAIRS, s->others,
                                      FOAMSICKLE_MAX_PAIRS, counts, FOAMSICKLE_READ_FIGURES);
    if (answer == 0) {
        s->vertices = (size_t)counts[0];
        s->edges = (size_t)counts[1];
        s->pairs = (size_t)counts[2];
    }
    return answer;
}

/* Reads an STP text. */
static inline uint64_t foamsickle_survey_read_stp(struct foamsickle_survey *s, const uint8_t *text,
                                                  size_t text_length) {
    uint64_t counts[FOAMSICKLE_STP_FIGURES];
    uint64_t answer = foamsickle_read_stp(text, text_length, s->groups, FOAMSICKLE_MAX_VERTICES, s->firsts,
                                          FOAMSICKLE_MAX_EDGES, s->seconds, FOAMSICKLE_MAX_EDGES, s->weights,
                                          FOAMSICKLE_MAX_EDGES, counts, FOAMSICKLE_STP_FIGURES);
    if (answer == 0) {
        s->vertices = (size_t)counts[0];
        s->edges = (size_t)counts[1];
        s->pairs = 0;
    }
    return answer;
}

static inline uint64_t foamsickle_stored(uint64_t answer, const uint64_t *counts, struct foamsickle_planned *p) {
    if (answer == 0) {
        p->sites = counts[0];
        p->cost = counts[1];
        p->bound = counts[2];
        p->rounds = counts[3];
        p->moats = counts[4];
    }
    return answer;
}

/* Plans. */
static inline uint64_t foamsickle_survey_plan(const struct foamsickle_survey *s, struct foamsickle_planned *p) {
    uint64_t counts[FOAMSICKLE_PLAN_FIGURES];
    return foamsickle_stored(foamsickle_plan(FOAMSICKLE_OF_SURVEY(s), p->marks, FOAMSICKLE_MAX_EDGES, p->records,
                                             FOAMSICKLE_RECORDS_ROOM, counts, FOAMSICKLE_PLAN_FIGURES),
                             counts, p);
}

/* Grows: marks 1 for picked tracks, cost 0. */
static inline uint64_t foamsickle_survey_grow(const struct foamsickle_survey *s, struct foamsickle_planned *p) {
    uint64_t counts[FOAMSICKLE_PLAN_FIGURES];
    return foamsickle_stored(foamsickle_grow(FOAMSICKLE_OF_SURVEY(s), p->marks, FOAMSICKLE_MAX_EDGES, p->records,
                                             FOAMSICKLE_RECORDS_ROOM, counts, FOAMSICKLE_PLAN_FIGURES),
                             counts, p);
}

/* Drops: turns the marks of needed tracks to 2, and stores sites and cost. */
static inline uint64_t foamsickle_survey_drop(const struct foamsickle_survey *s, struct foamsickle_planned *p) {
    uint64_t counts[FOAMSICKLE_DROP_FIGURES];
    uint64_t answer = foamsickle_drop(FOAMSICKLE_OF_SURVEY(s), p->marks, s->edges, counts, FOAMSICKLE_DROP_FIGURES);
    if (answer == 0) {
        p->sites = counts[0];
        p->cost = counts[1];
    }
    return answer;
}

/* Checks marks and moats, whoever drew them. */
static inline uint64_t foamsickle_survey_check(const struct foamsickle_survey *s, const struct foamsickle_planned *p,
                                               struct foamsickle_found *f) {
    uint64_t counts[FOAMSICKLE_CHECK_FIGURES];
    uint64_t answer = foamsickle_check(FOAMSICKLE_OF_SURVEY(s), p->marks, s->edges, p->records,
                                       (size_t)p->moats * FOAMSICKLE_RECORD_BYTES, counts, FOAMSICKLE_CHECK_FIGURES);
    if (answer == 0) {
        f->sites = counts[0];
        f->cost = counts[1];
        f->bound = counts[2];
    }
    return answer;
}

/* Says why a track has its mark. */
static inline uint64_t foamsickle_survey_why(const struct foamsickle_survey *s, uint32_t track,
                                             struct foamsickle_reason *r) {
    uint64_t counts[FOAMSICKLE_WHY_FIGURES];
    uint64_t answer = foamsickle_why(FOAMSICKLE_OF_SURVEY(s), track, r->route, FOAMSICKLE_MAX_ROUTE, counts,
                                     FOAMSICKLE_WHY_FIGURES);
    if (answer == 0) {
        r->mark = counts[0];
        r->group = counts[1];
        r->from = counts[2];
        r->to = counts[3];
        r->tracks = counts[4];
        r->round = counts[5];
    }
    return answer;
}

/* Plans with one track closed: a row of four numbers, as foamsickle_closed has it. */
static inline uint64_t foamsickle_survey_closed(const struct foamsickle_survey *s, uint32_t track,
                                                uint64_t row[FOAMSICKLE_ROW_FIGURES]) {
    return foamsickle_closed(FOAMSICKLE_OF_SURVEY(s), &track, 1, row, FOAMSICKLE_ROW_FIGURES);
}

/* A cost below which no set of tracks joins every group, of a bound: its half, and prices are whole. */
static inline uint64_t foamsickle_least_cost(uint64_t bound) {
    return bound / 2 + bound % 2;
}

/* Writes the words of an answer into out, as snprintf does: at most room bytes with the 0 behind them; returns how many
 * bytes all of it has without that. 128 bytes always hold it. */
static inline int foamsickle_words(uint64_t answer, char *out, size_t room) {
    static const char *const figures[3] = {"sites", "cost", "bound"};
    unsigned long long place = FOAMSICKLE_PLACE(answer);
    switch (FOAMSICKLE_NUMBER(answer)) {
    case 0:
        return snprintf(out, room, "not refused");
    case 1:
        return snprintf(out, room, "the survey has no junction, or more than the limit");
    case 2:
        return snprintf(out, room, "slices that are read side by side differ in length");
    case 3:
        return snprintf(out, room, "the survey has more tracks than the limit");
    case 4:
        return snprintf(out, room, "track %llu has an end that is no junction", place);
    case 5:
        return snprintf(out, room, "track %llu leads from a junction to itself", place);
    case 6:
        return snprintf(out, room, "the price of track %llu is over the limit", place);
    case 7:
        return snprintf(out, room, "a buffer to be written is too short");
    case 8:
        return snprintf(out, room, "no set of tracks joins the members of group %llu", place);
    case 9:
        return snprintf(out, room, "marks or records have a wrong length");
    case 10:
        return snprintf(out, room, "the mark of track %llu is over the limit", place);
    case 11:
        return snprintf(out, room, "the amount of moat %llu is 0 or over the limit, or a member is no junction", place);
    case 12:
        return snprintf(out, room, "moat %llu has no group's members on both sides", place);
    case 13:
        return snprintf(out, room, "the moats over track %llu are more than twice its price", place);
    case 14:
        return snprintf(out, room, "the kept tracks do not join the members of group %llu", place);
    case 15:
        return snprintf(out, room, "the plan costs more than its moats allow for its number of sites");
    case 16:
        return snprintf(out, room, "the text is malformed at byte %llu", place);
    case 17:
        return snprintf(out, room, "the group of junction %llu is over the limit", place);
    case 18:
        return snprintf(out, room, "pair %llu does not rise, or names no junction, no group or the junction's own group",
                        place);
    case 19:
        return snprintf(out, room, "there is no track %llu", place);
    case 20:
        return snprintf(out, room, "the STP text is malformed at byte %llu", place);
    case 21:
        return snprintf(out, room, "track %llu closes a loop with picked tracks of lower number", place);
    case 22:
        return snprintf(out, room, "tie %llu is out of range, or names a junction that is tied already", place);
    case 23:
        return snprintf(out, room, "the table is not whole tracks of twelve bytes");
    case 24:
        return snprintf(out, room, "the strength of group %llu is 0 or over 15, or there are not 255", place);
    case 25:
        return snprintf(out, room, "the plan's %s is not what the checker finds", figures[place < 2 ? place : 2]);
    case 26:
        return snprintf(out, room, "keep line %llu names no track, or does not rise", place);
    case 27:
        return snprintf(out, room, "moat line %llu has a member that is over the limit, or members that do not rise",
                        place);
    case 28:
        return snprintf(out, room, "moat line %llu is one too many", place);
    default:
        return snprintf(out, room, "refused with %u at %llu", FOAMSICKLE_NUMBER(answer), place);
    }
}

#endif
