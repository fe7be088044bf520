/* Foamsickle for C and C++: libfoamsickle.a, which `tools/build foamsickle` writes.
 *
 * Slices. Each slice is a pointer and, right behind it, its length in items, not in bytes. A slice of length 0 may have
 * any pointer, NULL too. A slice that is lent for writing must not overlap any other slice of the call.
 * foamsickle_survey.h has the calls over one struct for a survey, and a refusal in words.
 *
 * Answers. A call returns 0, or a refusal: its number is FOAMSICKLE_NUMBER(answer), its place FOAMSICKLE_PLACE(answer).
 * On a refusal nothing is written: every lent slice holds what it held. On an answer, entries behind those that are
 * named keep their values.
 *
 * A survey has n junctions and m tracks: `groups` has n bytes (the group of each junction, 0 for none), `firsts`,
 * `seconds` and `weights` have m numbers each (the two ends and the price of each track). The pairs (owners[i],
 * others[i]) give junction owners[i] the group others[i] besides its own; there may be none.
 * A survey is refused, in this order, with
 *   1  n is 0 or over FOAMSICKLE_MAX_VERTICES                                              place 0
 *   2  firsts, seconds and weights differ in length, or owners and others do               place 0
 *   3  over FOAMSICKLE_MAX_EDGES tracks                                                    place 0
 *   4  an end is no junction, 5 both ends are one, 6 the price is over FOAMSICKLE_MAX_WEIGHT   the lowest such track
 *  18  a pair is not in rising order (by owner, then group), past FOAMSICKLE_MAX_PAIRS, of no junction, of group 0
 *      or of the owner's own group                                                        the lowest such pair
 *
 * No call allocates, keeps a pointer, or reads or writes anything but its slices; calls from several threads do not
 * disturb each other. Numbers are lowest byte first where they cross as bytes. Amounts and the bound are in half price
 * units.
 */
#ifndef FOAMSICKLE_H
#define FOAMSICKLE_H

#include <stddef.h>
#include <stdint.h>

#ifdef __cplusplus
extern "C" {
#endif

/* The version of this header; foamsickle_version has that of the library. */
#define FOAMSICKLE_VERSION 10000
#define FOAMSICKLE_VERSION_TEXT "1.0.0"

/* Limits: junctions, tracks, a track's price, a moat's amount in half units, pairs; group numbers lie below the
 * last. */
#define FOAMSICKLE_MAX_VERTICES 448
#define FOAMSICKLE_MAX_EDGES 2048
#define FOAMSICKLE_MAX_WEIGHT 100000000
#define FOAMSICKLE_MAX_VALUE (2 * FOAMSICKLE_MAX_WEIGHT)
#define FOAMSICKLE_MAX_PAIRS 256
#define FOAMSICKLE_GROUP_NUMBERS 256

/* A moat record: the amount in the first bytes, then the members, junction v at bit v % 8 of byte v / 8. */
#define FOAMSICKLE_VALUE_BYTES 8
#define FOAMSICKLE_MEMBER_BYTES (FOAMSICKLE_MAX_VERTICES / 8)
#define FOAMSICKLE_RECORD_BYTES (FOAMSICKLE_VALUE_BYTES + FOAMSICKLE_MEMBER_BYTES)

/* Moats, at most, and the bytes of so many records, which hold the moats of every plan. */
#define FOAMSICKLE_MAX_DUALS (2 * FOAMSICKLE_MAX_VERTICES - 1)
#define FOAMSICKLE_RECORDS_ROOM (FOAMSICKLE_RECORD_BYTES * FOAMSICKLE_MAX_DUALS)

/* Tracks of a route, at most. */
#define FOAMSICKLE_MAX_ROUTE (FOAMSICKLE_MAX_VERTICES - 1)

/* Bytes that hold every moat line; every plan's text; the text of every survey that planning takes; both of them. */
#define FOAMSICKLE_DUAL_ROOM 2048
#define FOAMSICKLE_PLAN_ROOM 1549248
#define FOAMSICKLE_SURVEY_ROOM 65536
#define FOAMSICKLE_VERIFY_ROOM 2097152

/* Entries of `counts`: planning and growing, dropping, asking why, the floor, copies for strengths, merging, checking
 * and verifying, reading, reading STP, printing. */
#define FOAMSICKLE_PLAN_FIGURES 5
#define FOAMSICKLE_DROP_FIGURES 2
#define FOAMSICKLE_WHY_FIGURES 6
#define FOAMSICKLE_WINTER_FIGURES 1
#define FOAMSICKLE_CHECK_FIGURES 3
#define FOAMSICKLE_READ_FIGURES 3
#define FOAMSICKLE_STP_FIGURES 2
#define FOAMSICKLE_MERGE_FIGURES 3
#define FOAMSICKLE_PRINT_FIGURES 1
#define FOAMSICKLE_FLOOR_FIGURES 4

/* Numbers in the list of closed tracks, at most; and of `result` for each. */
#define FOAMSICKLE_MAX_CLOSED 256
#define FOAMSICKLE_ROW_FIGURES 4

/* Strengths of a call, that of group 1 first; the highest. */
#define FOAMSICKLE_STRENGTHS 255
#define FOAMSICKLE_MAX_STRENGTH 15

/* Bytes of a season's report, and bytes that hold the text of every one. */
#define FOAMSICKLE_REPORT_BYTES 208
#define FOAMSICKLE_REPORT_ROOM 747

/* Bytes of the handset's `result`: planning, checking. */
#define FOAMSICKLE_PLAN_BYTES (8 * FOAMSICKLE_PLAN_FIGURES)
#define FOAMSICKLE_CHECK_BYTES (8 * FOAMSICKLE_CHECK_FIGURES)

/* Bytes of stack that a call takes, at most; foamsickle_why, which walks a route, takes up to the second. */
#define FOAMSICKLE_STACK 131072
#define FOAMSICKLE_WHY_STACK 262144

/* What an answer other than 0 says. */
#define FOAMSICKLE_NUMBER(answer) ((unsigned)((answer) % 256))
#define FOAMSICKLE_PLACE(answer) ((answer) / 256)

/* The version of the library: 10,000 times its first number, plus 100 times its second, plus its third.
 * Refuses nothing. */
uint64_t foamsickle_version(void);

/* Reads a survey's text (lines nodes=, links=, node=, also=, link=).
 * Writes the first n groups, the first m firsts, seconds and weights, the first owners and others of the pairs;
 * counts[0] n, counts[1] m, counts[2] the number of pairs.
 * Refuses what stands first in the text: 16 where it is malformed (place: the byte's offset), 1 and 3 when the line of
 * a count is complete, then 7 if the slices for it are short (for n also where counts has less than 3 entries), 17 for
 * a group over 255 (place: the junction), and when an also line is complete 17 (place: its junction as written), then
 * 18 (place: the pair), then 7 if owners or others is full. 4, 5 and 6 are left to planning.
 * Enough for every text: FOAMSICKLE_MAX_VERTICES groups, FOAMSICKLE_MAX_EDGES firsts, seconds and weights,
 * FOAMSICKLE_MAX_PAIRS owners and others. */
uint64_t foamsickle_read(
    const uint8_t *text, size_t text_length,
    uint8_t *groups, size_t groups_length,
    uint32_t *firsts, size_t firsts_length,
    uint32_t *seconds, size_t seconds_length,
    uint32_t *weights, size_t weights_length,
    uint32_t *owners, size_t owners_length,
    uint8_t *others, size_t others_length,
    uint64_t *counts, size_t counts_length);

/* Reads a SteinLib STP text of the undirected subset (docs/STP.md); junctions count from 1 there and from 0 here, and
 * all terminals form group 1.
 * Writes the first n groups (1 for a terminal, else 0), the first m firsts, seconds and weights; counts[0] n, counts[1]
 * m.
 * Refuses what stands first in the text: 20 where it is malformed (place: the byte's offset), 1 and 3 when the line of
 * a count is complete, then 7 if the slices for it are short (for n also where counts has less than 2 entries). 5 and 6
 * are left to planning. An answer that 64 bits do not hold is 2^64 - 1; a text of less than 4 GiB has none.
 * Enough for every text: FOAMSICKLE_MAX_VERTICES groups, FOAMSICKLE_MAX_EDGES firsts, seconds and weights. */
uint64_t foamsickle_read_stp(
    const uint8_t *text, size_t text_length,
    uint8_t *groups, size_t groups_length,
    uint32_t *firsts, size_t firsts_length,
    uint32_t *seconds, size_t seconds_length,
    uint32_t *weights, size_t weights_length,
    uint64_t *counts, size_t counts_length);

/* Plans a survey.
 * Writes the first m marks (0 not picked, 1 picked and dropped, 2 kept), the moat records one after the other, and
 * counts[0] sites, counts[1] cost of the kept tracks, counts[2] bound, counts[3] rounds, counts[4] moats.
 * Refuses 1 to 6 and 18 as above, then 7 (marks, records or counts too short), then 8 (a group that no set of tracks
 * joins; place: the lowest such group).
 * Needed: m marks, FOAMSICKLE_RECORD_BYTES * (2 * n - 1) bytes of records, FOAMSICKLE_PLAN_FIGURES counts. */
uint64_t foamsickle_plan(
    const uint8_t *groups, size_t groups_length,
    const uint32_t *firsts, size_t firsts_length,
    const uint32_t *seconds, size_t seconds_length,
    const uint32_t *weights, size_t weights_length,
    const uint32_t *owners, size_t owners_length,
    const uint8_t *others, size_t others_length,
    uint8_t *marks, size_t marks_length,
    uint8_t *records, size_t records_length,
    uint64_t *counts, size_t counts_length);

/* Grows: planning before any picked track is dropped.
 * Writes the first m marks (1 picked, 0 not), the moat records of planning, and planning's counts with cost 0.
 * Refuses as foamsickle_plan, in the same order, and needs the same lengths. */
uint64_t foamsickle_grow(
    const uint8_t *groups, size_t groups_length,
    const uint32_t *firsts, size_t firsts_length,
    const uint32_t *seconds, size_t seconds_length,
    const uint32_t *weights, size_t weights_length,
    const uint32_t *owners, size_t owners_length,
    const uint8_t *others, size_t others_length,
    uint8_t *marks, size_t marks_length,
    uint8_t *records, size_t records_length,
    uint64_t *counts, size_t counts_length);

/* Drops: of the tracks marked 1, those that some group needs become 2; nothing else is written.
 * Writes the marks, counts[0] sites, counts[1] cost of the tracks marked 2 then. Growing and then dropping, lent just
 * the m marks, is planning. For marks that growing did not leave, accuracy is promised only where foamsickle_check
 * passes them.
 * Refuses 1 to 6 and 18 as above, then 7 (counts too short), then 9 (marks not m long), 10 (a mark above 1; track), 21
 * (a track marked 1 that closes a loop with such tracks of lower number; the lowest such track), 14 (the tracks marked
 * 1 leave a group apart; group).
 * Needed: FOAMSICKLE_DROP_FIGURES counts. */
uint64_t foamsickle_drop(
    const uint8_t *groups, size_t groups_length,
    const uint32_t *firsts, size_t firsts_length,
    const uint32_t *seconds, size_t seconds_length,
    const uint32_t *weights, size_t weights_length,
    const uint32_t *owners, size_t owners_length,
    const uint8_t *others, size_t others_length,
    uint8_t *marks, size_t marks_length,
    uint64_t *counts, size_t counts_length);

/* Says why a track is on the sheet, or is not: the reason for the mark that planning gives it.
 * Writes counts[0], the mark. 2, kept: counts[1] is the lowest group that is parted without the track, counts[2] and
 * counts[3] the lowest pair of its members so parted, counts[4] the number of kept tracks between them, and the first
 * entries of route are these in walking order from counts[2]. 1, picked and dropped: no group needs it. 0, not picked:
 * counts[5] is the round, from 1, after which its ends were first in one component, 0 for never. Counts that are not
 * named are 0, and without a route nothing is written into route.
 * Refuses 1 to 6 and 18 as above, then 7 (counts or route too short), then 8 (a group that no set of tracks joins;
 * place: the lowest such group), then 19 (track is m or more; place: track).
 * Needed: n - 1 entries of route, of which FOAMSICKLE_MAX_ROUTE are always enough, and FOAMSICKLE_WHY_FIGURES
 * counts. */
uint64_t foamsickle_why(
    const uint8_t *groups, size_t groups_length,
    const uint32_t *firsts, size_t firsts_length,
    const uint32_t *seconds, size_t seconds_length,
    const uint32_t *weights, size_t weights_length,
    const uint32_t *owners, size_t owners_length,
    const uint8_t *others, size_t others_length,
    uint32_t track,
    uint32_t *route, size_t route_length,
    uint64_t *counts, size_t counts_length);

/* Plans with one track closed, for each number in tracks: the track is never a candidate, and all numbers are kept.
 * Writes for each, in list order, four numbers: result[4 i] the refusal or 0, result[4 i + 1] its place, result[4 i + 2]
 * the cost, result[4 i + 3] the bound; in a refused row cost and bound are 0. A row has 19 (place: the number) for a
 * number of m or more, else 8 (place: the lowest group that the other tracks do not join); the others proceed. A number
 * may stand in the list more than once.
 * Refuses 1 to 6 and 18 as above, then 7 (over FOAMSICKLE_MAX_CLOSED tracks, or result too short).
 * Needed: FOAMSICKLE_ROW_FIGURES numbers of result for each track. */
uint64_t foamsickle_closed(
    const uint8_t *groups, size_t groups_length,
    const uint32_t *firsts, size_t firsts_length,
    const uint32_t *seconds, size_t seconds_length,
    const uint32_t *weights, size_t weights_length,
    const uint32_t *owners, size_t owners_length,
    const uint8_t *others, size_t others_length,
    const uint32_t *tracks, size_t tracks_length,
    uint64_t *result, size_t result_length);

/* Copies of tracks for groups that carry a strength from 1 to 15: every division of the junctions with members of a
 * group on both sides is crossed by at least its strength of copies; a track may be copied, at full price each time.
 * Writes the first m copies (0 to 15 of each track), and counts[0] their total price. No copies that meet the strengths
 * have a price which, times 4 (2 sites - 2), is below sites times this one.
 * Refuses 1 to 6 and 18 as above, then 24 (strengths not FOAMSICKLE_STRENGTHS long, place 0; or place: the lowest group
 * with strength 0 or over FOAMSICKLE_MAX_STRENGTH, with members or without), then 7 (copies or counts too short), then
 * 8 as in planning.
 * Needed: m copies, FOAMSICKLE_WINTER_FIGURES counts. */
uint64_t foamsickle_winter(
    const uint8_t *groups, size_t groups_length,
    const uint32_t *firsts, size_t firsts_length,
    const uint32_t *seconds, size_t seconds_length,
    const uint32_t *weights, size_t weights_length,
    const uint32_t *owners, size_t owners_length,
    const uint8_t *others, size_t others_length,
    const uint8_t *strengths, size_t strengths_length,
    uint8_t *copies, size_t copies_length,
    uint64_t *counts, size_t counts_length);

/* Makes one survey of two neighbouring ones: the second's slices have second_ before their names. Tie i says that
 * junction tie_firsts[i] of the first and tie_seconds[i] of the second are one; there may be no ties.
 * Writes the result's six slices: junctions of the first keep their numbers, the untied ones of the second follow,
 * rising; tracks of the first come first. Equal group numbers are one group. The own group of a tied junction is the
 * first's, or the second's where that is 0; every other of its groups in either survey is a pair, once. Pairs rise by
 * owner, then group. counts[0] n, counts[1] m, counts[2] the number of pairs.
 * Refuses the first's 1 to 6 and 18 as above, then the second's, then 2 (tie_firsts and tie_seconds differ in length; 0),
 * 22 (the lowest tie that is out of range or names a junction already tied on that side), then for the result 1, 3, 18
 * (a 257th pair; 256) and 7 (counts or a slice of the result too short). No survey is judged for 8.
 * Needed: FOAMSICKLE_MERGE_FIGURES counts; FOAMSICKLE_MAX_VERTICES, FOAMSICKLE_MAX_EDGES and FOAMSICKLE_MAX_PAIRS entries
 * hold every result. */
uint64_t foamsickle_merge(
    const uint8_t *groups, size_t groups_length,
    const uint32_t *firsts, size_t firsts_length,
    const uint32_t *seconds, size_t seconds_length,
    const uint32_t *weights, size_t weights_length,
    const uint32_t *owners, size_t owners_length,
    const uint8_t *others, size_t others_length,
    const uint8_t *second_groups, size_t second_groups_length,
    const uint32_t *second_firsts, size_t second_firsts_length,
    const uint32_t *second_seconds, size_t second_seconds_length,
    const uint32_t *second_weights, size_t second_weights_length,
    const uint32_t *second_owners, size_t second_owners_length,
    const uint8_t *second_others, size_t second_others_length,
    const uint32_t *tie_firsts, size_t tie_firsts_length,
    const uint32_t *tie_seconds, size_t tie_seconds_length,
    uint8_t *out_groups, size_t out_groups_length,
    uint32_t *out_firsts, size_t out_firsts_length,
    uint32_t *out_seconds, size_t out_seconds_length,
    uint32_t *out_weights, size_t out_weights_length,
    uint32_t *out_owners, size_t out_owners_length,
    uint8_t *out_others, size_t out_others_length,
    uint64_t *counts, size_t counts_length);

/* A floor under the cost of every set of tracks that joins every group: no such set costs less, and where the floor is
 * the cost the plan is a cheapest one. It is found from the survey alone, by dual ascent over directed cuts.
 * Writes counts[0] floor, counts[1] sites, counts[2] cost of the plan, counts[3] bound, in half units.
 * Refuses 1 to 6 and 18 as above, then 7 (counts too short), then 8 (place: the lowest group that cannot be joined).
 * Needed: FOAMSICKLE_FLOOR_FIGURES counts. */
uint64_t foamsickle_floor(
    const uint8_t *groups, size_t groups_length,
    const uint32_t *firsts, size_t firsts_length,
    const uint32_t *seconds, size_t seconds_length,
    const uint32_t *weights, size_t weights_length,
    const uint32_t *owners, size_t owners_length,
    const uint8_t *others, size_t others_length,
    uint64_t *counts, size_t counts_length);

/* Checks marks and moat records, whoever drew them, against a survey.
 * Writes counts[0] sites, counts[1] cost of the kept tracks, counts[2] bound.
 * Refuses 1 to 6 and 18 as above, then 7 (counts too short), then 9 (marks not m long, records no multiple of
 * FOAMSICKLE_RECORD_BYTES or over FOAMSICKLE_MAX_DUALS), 10 (a mark above 2; track), 11 (an amount of 0 or over
 * FOAMSICKLE_MAX_VALUE, or a member that is no junction; record), 12 (a moat that parts no group; record), 13 (moats
 * over a track sum to more than twice its price; track), 14 (the kept tracks leave a group apart; group), 15 (the cost
 * is more than the moats prove; 0), each over all its items, the lowest first.
 * Needed: FOAMSICKLE_CHECK_FIGURES counts. Of the records that planning or growing wrote, not the whole buffer but its
 * first moats * FOAMSICKLE_RECORD_BYTES bytes are lent, moats being counts[4] there. */
uint64_t foamsickle_check(
    const uint8_t *groups, size_t groups_length,
    const uint32_t *firsts, size_t firsts_length,
    const uint32_t *seconds, size_t seconds_length,
    const uint32_t *weights, size_t weights_length,
    const uint32_t *owners, size_t owners_length,
    const uint8_t *others, size_t others_length,
    const uint8_t *marks, size_t marks_length,
    const uint8_t *records, size_t records_length,
    uint64_t *counts, size_t counts_length);

/* Prints the line of one moat record.
 * Writes the line into out; counts[0] its length.
 * Refuses 9 (part is not FOAMSICKLE_RECORD_BYTES long), then 7 (the line does not fit out, or counts is empty).
 * Enough for every line: FOAMSICKLE_DUAL_ROOM bytes. */
uint64_t foamsickle_print_dual(
    const uint8_t *part, size_t part_length,
    uint8_t *out, size_t out_length,
    uint64_t *counts, size_t counts_length);

/* Prints a plan: its four figures, a keep line for each mark 2, a moat line for each whole record.
 * Writes the text into out; counts[0] its length.
 * Refuses 7 (the text does not fit out, or counts is empty).
 * Enough for every plan within the limits: FOAMSICKLE_PLAN_ROOM bytes. */
uint64_t foamsickle_print_plan(
    uint64_t terminals,
    uint64_t cost,
    uint64_t bound,
    uint64_t rounds,
    const uint8_t *marks, size_t marks_length,
    const uint8_t *records, size_t records_length,
    uint8_t *out, size_t out_length,
    uint64_t *counts, size_t counts_length);

/* Prints a survey, also one that planning would refuse.
 * Writes the text into out; counts[0] its length.
 * Refuses 2 (firsts, seconds and weights differ in length, or owners and others), then 7 (the text does not fit out, or
 * counts is empty).
 * Enough for every survey that planning takes: FOAMSICKLE_SURVEY_ROOM bytes. */
uint64_t foamsickle_print_survey(
    const uint8_t *groups, size_t groups_length,
    const uint32_t *firsts, size_t firsts_length,
    const uint32_t *seconds, size_t seconds_length,
    const uint32_t *weights, size_t weights_length,
    const uint32_t *owners, size_t owners_length,
    const uint8_t *others, size_t others_length,
    uint8_t *out, size_t out_length,
    uint64_t *counts, size_t counts_length);

/* Packs a track table for the memory card. A track is twelve bytes: two ends and a price, four bytes each, lowest first.
 * Writes into out the first bytes of all tracks, then all second bytes, and so on: byte j of track i of m at j * m + i.
 * Refuses 23 (table_length is no multiple of twelve), then 7 (out is shorter than table). Any number of tracks.
 * Needed: table_length bytes of out. */
uint64_t foamsickle_pack_table(
    const uint8_t *table, size_t table_length,
    uint8_t *out, size_t out_length);

/* Unpacks a packed track table: undoes foamsickle_pack_table, which undoes it.
 * Writes into out the tracks, one after another.
 * Refuses as foamsickle_pack_table. Needed: as there. */
uint64_t foamsickle_unpack_table(
    const uint8_t *table, size_t table_length,
    uint8_t *out, size_t out_length);

/* Checks a printed plan against a survey's text: text is the survey's bytes with the plan's right behind them.
 * Writes counts[0] sites, counts[1] cost of the kept tracks, counts[2] bound, as the checker finds them.
 * Refuses what reading refuses of the survey but 7; 16, 26 (a kept track that is none or does not rise; its line), 27
 * (members of a moat that are FOAMSICKLE_MAX_VERTICES or more, or do not rise; its line) and 28 (over
 * FOAMSICKLE_MAX_DUALS moats; line) of the plan, whichever stands first; then 4 to 6 and 11 to 15 as foamsickle_check;
 * 25 (a figure that the checker does not find; 0 sites, 1 cost, 2 bound); last 7 (counts too short). An answer that 64
 * bits do not hold is 2^64 - 1; no text that a machine holds has one.
 * Needed: FOAMSICKLE_CHECK_FIGURES counts. */
uint64_t foamsickle_verify(
    const uint8_t *text, size_t text_length,
    uint64_t *counts, size_t counts_length);

/* Adds a survey to a season's report: plans it and counts it, planned or refused. The report is FOAMSICKLE_REPORT_BYTES
 * bytes, all 0 before the first survey; any bytes are a report. Its numbers have eight bytes each, lowest first: surveys,
 * planned ones, their cost, their bound; how many were refused under each number, from 0 to 18; and of the plan with the
 * largest ratio of twice the cost to the bound, the earliest among equals: its position, the first survey being 0, twice
 * its cost and its bound, all 0 for none.
 * Writes the report. A refusal of the survey itself is counted in it, and is no refusal of the call.
 * Refuses 7 (report too short), then 3 (it has 1,000 surveys, or a count or a total would pass 64 bits, which from a report
 * of 0 bytes never occurs). */
uint64_t foamsickle_season_add(
    uint8_t *report, size_t report_length,
    const uint8_t *groups, size_t groups_length,
    const uint32_t *firsts, size_t firsts_length,
    const uint32_t *seconds, size_t seconds_length,
    const uint32_t *weights, size_t weights_length,
    const uint32_t *owners, size_t owners_length,
    const uint8_t *others, size_t others_length);

/* Prints a season's report: lines planned=, cost=, bound=, refused=number,count for each number met, and
 * far=position,twice cost,bound or far=none.
 * Writes the text into out; counts[0] its length.
 * Refuses 7 (report too short, the text does not fit out, or counts is empty).
 * Enough for every report: FOAMSICKLE_REPORT_ROOM bytes. */
uint64_t foamsickle_season_print(
    const uint8_t *report, size_t report_length,
    uint8_t *out, size_t out_length,
    uint64_t *counts, size_t counts_length);

/* foamsickle_plan for callers with bytes alone: firsts, seconds, weights and owners have four bytes for each number,
 * lowest first, and all lengths are in bytes.
 * Writes marks and records as foamsickle_plan; result gets sites, cost, bound, rounds and moats, eight bytes each,
 * lowest first.
 * Refuses 1, then 2 (also where one of those four is no multiple of four long), 3 to 6, 18, then 7 (marks, records or
 * result too short), then 8.
 * Needed: as foamsickle_plan, and FOAMSICKLE_PLAN_BYTES of result. */
uint64_t foamsickle_handset_plan(
    const uint8_t *groups, size_t groups_length,
    const uint8_t *firsts, size_t firsts_length,
    const uint8_t *seconds, size_t seconds_length,
    const uint8_t *weights, size_t weights_length,
    const uint8_t *owners, size_t owners_length,
    const uint8_t *others, size_t others_length,
    uint8_t *marks, size_t marks_length,
    uint8_t *records, size_t records_length,
    uint8_t *result, size_t result_length);

/* foamsickle_check for callers with bytes alone, as foamsickle_handset_plan.
 * Writes sites, cost of the kept tracks and bound into result, eight bytes each, lowest first.
 * Refuses 1, then 2 (also where firsts, seconds, weights or owners is no multiple of four long), 3 to 6, 18, then 7
 * (result too short), then 9 to 15.
 * Needed: FOAMSICKLE_CHECK_BYTES of result. */
uint64_t foamsickle_handset_check(
    const uint8_t *groups, size_t groups_length,
    const uint8_t *firsts, size_t firsts_length,
    const uint8_t *seconds, size_t seconds_length,
    const uint8_t *weights, size_t weights_length,
    const uint8_t *owners, size_t owners_length,
    const uint8_t *others, size_t others_length,
    const uint8_t *marks, size_t marks_length,
    const uint8_t *records, size_t records_length,
    uint8_t *result, size_t result_length);

#ifdef __cplusplus
}
#endif

#endif
