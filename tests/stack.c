/* How much stack the library's calls take: each runs in a thread whose stack is painted before, and what is no longer
 * painted afterwards was used. The surveys are as large as can be. Prints the bytes of each call, and ends with 1 if one
 * takes more than FOAMSICKLE_STACK (asking why: FOAMSICKLE_WHY_STACK), or than the number given, or does not answer. */
#include "foamsickle.h"

#include <pthread.h>
#include <stdio.h>
#include <stdlib.h>
#include <string.h>

enum { N = FOAMSICKLE_MAX_VERTICES, M = FOAMSICKLE_MAX_EDGES, PAIRS = FOAMSICKLE_MAX_PAIRS, AREA = 16 << 20, PAINT = 0xa5 };

static uint8_t groups[N], others[PAIRS], marks[M], records[FOAMSICKLE_RECORDS_ROOM];
static uint32_t firsts[M], seconds[M], weights[M], owners[PAIRS], route[FOAMSICKLE_MAX_ROUTE];
static uint8_t first_bytes[4 * M], second_bytes[4 * M], weight_bytes[4 * M], owner_bytes[4 * PAIRS];
static uint8_t result[FOAMSICKLE_PLAN_BYTES], text[FOAMSICKLE_VERIFY_ROOM];
static uint64_t counts[FOAMSICKLE_WHY_FIGURES], figures[FOAMSICKLE_PLAN_FIGURES];
static char stp[FOAMSICKLE_SURVEY_ROOM];
static size_t moat_bytes, survey_length, text_length, stp_length;
static uint64_t answer;

static void spell(uint8_t *bytes, const uint32_t *numbers, size_t count) {
    for (size_t i = 0; i < count; i++)
        for (size_t k = 0; k < 4; k++)
            bytes[4 * i + k] = (uint8_t)(numbers[i] >> (8 * k));
}

/* All junctions in one group, and each but the last two in another by a pair; the last tracks are a path on which each is
 * dearer than the one before it, so that there are as many moats as can be. */
static void prepare(void) {
    for (size_t v = 0; v < N; v++)
        groups[v] = 255;
    for (size_t e = 0; e < M; e++) {
        size_t k = e < M - (N - 1) ? 0 : e - (M - (N - 1));
        firsts[e] = (uint32_t)(N - 2 - k);
        seconds[e] = (uint32_t)(N - 1 - k);
        weights[e] = e < M - (N - 1) ? FOAMSICKLE_MAX_WEIGHT : (uint32_t)(100000 + 3500 * k);
    }
    for (size_t i = 0; i < PAIRS; i++) {
        owners[i] = (uint32_t)(i % N);
        others[i] = (uint8_t)(1 + i % 2);
    }
    spell(first_bytes, firsts, M);
    spell(second_bytes, seconds, M);
    spell(weight_bytes, weights, M);
    spell(owner_bytes, owners, PAIRS);
}

/* The longest STP file without a comment and empty lines. */
static void prepare_stp(void) {
    char *at = stp + sprintf(stp, "33D32945 STP File, STP Format Version 1.0\nSECTION Graph\nNodes %d\nEdges %d\n", N, M);
    for (int e = 0; e < M; e++)
        at += sprintf(at, "E %d %d 999999999\n", N, N - 1);
    at += sprintf(at, "END\nSECTION Terminals\nTerminals %d\n", N);
    for (int v = N; v > 0; v--)
        at += sprintf(at, "T %d\n", v);
    stp_length = (size_t)(at - stp) + (size_t)sprintf(at, "END\nEOF\n");
}

static uint8_t report[FOAMSICKLE_REPORT_BYTES];

static void nothing(void) { answer = 0; }

static void plan(void) {
    answer = foamsickle_plan(groups, N, firsts, M, seconds, M, weights, M, owners, PAIRS, others, PAIRS, marks, M, records,
                             sizeof records, figures, FOAMSICKLE_PLAN_FIGURES);
    moat_bytes = FOAMSICKLE_RECORD_BYTES * (size_t)figures[4];
}

static void grow(void) {
    answer = foamsickle_grow(groups, N, firsts, M, seconds, M, weights, M, owners, PAIRS, others, PAIRS, marks, M, records,
                             sizeof records, figures, FOAMSICKLE_PLAN_FIGURES);
}

static void drop(void) {
    answer = foamsickle_drop(groups, N, firsts, M, seconds, M, weights, M, owners, PAIRS, others, PAIRS, marks, M, figures,
                             FOAMSICKLE_DROP_FIGURES);
}

/* The first track of the path: the junctions that it parts are the path's ends, so that the route is as long as can be. */
static void why(void) {
    answer = foamsickle_why(groups, N, firsts, M, seconds, M, weights, M, owners, PAIRS, others, PAIRS, M - (N - 1), route,
                            FOAMSICKLE_MAX_ROUTE, counts, FOAMSICKLE_WHY_FIGURES);
    if (answer == 0 && counts[4] != FOAMSICKLE_MAX_ROUTE)
        answer = 1;
}

/* The path's first track, which is picked, and one that is not. */
static void closed(void) {
    static const uint32_t tracks[] = {M - (N - 1), 0};
    static uint64_t rows[2 * FOAMSICKLE_ROW_FIGURES];
    answer = foamsickle_closed(groups, N, firsts, M, seconds, M, weights, M, owners, PAIRS, others, PAIRS, tracks, 2, rows,
                               2 * FOAMSICKLE_ROW_FIGURES);
}

/* The survey, and its junctions with their pairs and no track, each tied to itself. */
static void merge(void) {
    static uint32_t ties[N], out_firsts[M], out_seconds[M], out_weights[M], out_owners[PAIRS];
    static uint8_t out_groups[N], out_others[PAIRS];
    static uint64_t merged[FOAMSICKLE_MERGE_FIGURES];
    for (uint32_t v = 0; v < N; v++)
        ties[v] = v;
    answer = foamsickle_merge(groups, N, firsts, M, seconds, M, weights, M, owners, PAIRS, others, PAIRS, groups, N, firsts, 0,
                              seconds, 0, weights, 0, owners, PAIRS, others, PAIRS, ties, N, ties, N, out_groups, N, out_firsts,
                              M, out_seconds, M, out_weights, M, out_owners, PAIRS, out_others, PAIRS, merged,
                              FOAMSICKLE_MERGE_FIGURES);
}

/* Strength 15 for every group: all four bits are planned for. */
static void winter(void) {
    static uint8_t strengths[FOAMSICKLE_STRENGTHS], copies[M];
    memset(strengths, FOAMSICKLE_MAX_STRENGTH, sizeof strengths);
    answer = foamsickle_winter(groups, N, firsts, M, seconds, M, weights, M, owners, PAIRS, others, PAIRS, strengths,
                               FOAMSICKLE_STRENGTHS, copies, M, counts, FOAMSICKLE_WINTER_FIGURES);
}

static void lowest(void) {
    answer = foamsickle_floor(groups, N, firsts, M, seconds, M, weights, M, owners, PAIRS, others, PAIRS, counts,
                              FOAMSICKLE_FLOOR_FIGURES);
}

static void check(void) {
    answer = foamsickle_check(groups, N, firsts, M, seconds, M, weights, M, owners, PAIRS, others, PAIRS, marks, M, records,
                              moat_bytes, counts, FOAMSICKLE_CHECK_FIGURES);
}

static void handset_plan(void) {
    answer = foamsickle_handset_plan(groups, N, first_bytes, 4 * M, second_bytes, 4 * M, weight_bytes, 4 * M, owner_bytes,
                                     4 * PAIRS, others, PAIRS, marks, M, records, sizeof records, result, sizeof result);
}

static void handset_check(void) {
    answer = foamsickle_handset_check(groups, N, first_bytes, 4 * M, second_bytes, 4 * M, weight_bytes, 4 * M, owner_bytes,
                                      4 * PAIRS, others, PAIRS, marks, M, records, moat_bytes, result,
                                      FOAMSICKLE_CHECK_BYTES);
}

static void print_survey(void) {
    answer = foamsickle_print_survey(groups, N, firsts, M, seconds, M, weights, M, owners, PAIRS, others, PAIRS, text,
                                     sizeof text, counts, 1);
    survey_length = (size_t)counts[0];
}

static void read_survey(void) {
    answer = foamsickle_read(text, survey_length, groups, N, firsts, M, seconds, M, weights, M, owners, PAIRS, others,
                             PAIRS, counts, FOAMSICKLE_READ_FIGURES);
}

/* Into buffers of its own, so that the survey stays. */
static void read_stp(void) {
    static uint8_t stp_groups[N];
    static uint32_t ends[3][M];
    answer = foamsickle_read_stp((const uint8_t *)stp, stp_length, stp_groups, N, ends[0], M, ends[1], M, ends[2], M, counts,
                                 FOAMSICKLE_STP_FIGURES);
}

static void print_plan(void) {
    answer = foamsickle_print_plan(figures[0], figures[1], figures[2], figures[3], marks, M, records, moat_bytes,
                                   text + survey_length, sizeof text - survey_length, counts, 1);
    text_length = survey_length + (size_t)counts[0];
}

static void print_moat(void) {
    uint8_t line[FOAMSICKLE_DUAL_ROOM];
    answer = foamsickle_print_dual(records + moat_bytes - FOAMSICKLE_RECORD_BYTES, FOAMSICKLE_RECORD_BYTES, line,
                                   sizeof line, counts, 1);
}

static void verify(void) { answer = foamsickle_verify(text, text_length, counts, FOAMSICKLE_CHECK_FIGURES); }

static uint8_t table[2][12 * M];

static void pack_table(void) { answer = foamsickle_pack_table(table[0], sizeof table[0], table[1], sizeof table[1]); }

static void unpack_table(void) { answer = foamsickle_unpack_table(table[1], sizeof table[1], table[0], sizeof table[0]); }

static void season_add(void) {
    answer = foamsickle_season_add(report, sizeof report, groups, N, firsts, M, seconds, M, weights, M, owners, PAIRS, others,
                                   PAIRS);
}

static void season_print(void) {
    uint8_t lines[FOAMSICKLE_REPORT_ROOM];
    answer = foamsickle_season_print(report, sizeof report, lines, sizeof lines, counts, FOAMSICKLE_PRINT_FIGURES);
}

static void *run(void *call) {
    (*(void (**)(void))call)();
    return NULL;
}

/* The bytes that a thread used which ran this. */
static size_t used(void (*call)(void), uint8_t *area) {
    pthread_t thread;
    pthread_attr_t attr;
    memset(area, PAINT, AREA);
    if (pthread_attr_init(&attr) || pthread_attr_setstack(&attr, area, AREA) || pthread_create(&thread, &attr, run, &call) ||
        pthread_join(thread, NULL)) {
        fprintf(stderr, "stack: no thread\n");
        exit(2);
    }
    pthread_attr_destroy(&attr);
    size_t clean = 0;
    while (clean < AREA && area[clean] == PAINT)
        clean++;
    return AREA - clean;
}

int main(int argc, char **argv) {
    static const struct {
        const char *name;
        void (*call)(void);
    } calls[] = {
        {"foamsickle_grow", grow},
        {"foamsickle_drop", drop},
        {"foamsickle_plan", plan},
        {"foamsickle_why", why},
        {"foamsickle_closed", closed},
        {"foamsickle_merge", merge},
        {"foamsickle_winter", winter},
        {"foamsickle_floor", lowest},
        {"foamsickle_check", check},
        {"foamsickle_handset_plan", handset_plan},
        {"foamsickle_handset_check", handset_check},
        {"foamsickle_print_survey", print_survey},
        {"foamsickle_read", read_survey},
        {"foamsickle_read_stp", read_stp},
        {"foamsickle_print_plan", print_plan},
        {"foamsickle_print_dual", print_moat},
        {"foamsickle_verify", verify},
        {"foamsickle_pack_table", pack_table},
        {"foamsickle_unpack_table", unpack_table},
        {"foamsickle_season_add", season_add},
        {"foamsickle_season_print", season_print},
    };
    size_t limit = argc == 2 ? (size_t)strtoul(argv[1], NULL, 10) : FOAMSICKLE_STACK;
    uint8_t *area = aligned_alloc(4096, AREA);
    int over = 0;
    prepare();
    prepare_stp();
    size_t empty = used(nothing, area);
    printf("a thread without a call: %zu bytes\n", empty);
    for (size_t i = 0; i < sizeof calls / sizeof *calls; i++) {
        size_t bytes = used(calls[i].call, area) - empty;
        size_t most = argc != 2 && calls[i].call == why ? FOAMSICKLE_WHY_STACK : limit;
        printf("%s: %zu bytes more, of %zu\n", calls[i].name, bytes, most);
        if (answer != 0) {
            printf("%s answers %llu\n", calls[i].name, (unsigned long long)answer);
            over = 1;
        }
        if (bytes > most)
            over = 1;
    }
    free(area);
    return over;
}
