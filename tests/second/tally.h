/* What the parts of the tally share: the kinds of answers, and counting and printing them. */
#ifndef TALLY_H
#define TALLY_H

#include "second.h"

/* Every kind of answer that is counted: its name here and its name in the table. */
#define KINDS(K) \
    K(LAND, "engine point: land") \
    K(WATER, "engine point: water") \
    K(CLEAR, "verdict: clear") \
    K(BLOCKED, "verdict: blocked") \
    K(TOUCHING, "verdict: clear, touching exactly") \
    K(HAIR, "verdict: blocked by at most 1 mm") \
    K(PLAN_NEITHER, "plan: both masts 0") \
    K(PLAN_FIRST, "plan: only the first above 0") \
    K(PLAN_SECOND, "plan: only the second above 0") \
    K(PLAN_BOTH, "plan: both above 0") \
    K(PLAN_NO_PAIR, "plan: no pair") \
    K(PLAN_TOUCHING, "plan: touching exactly") \
    K(PLAN_TIE, "plan: another clear pair of that sum") \
    K(PLAN_LIMITED, "plan: a mast at a limit below 100") \
    K(STEPS_ONE, "path given: N = 1") \
    K(STEPS_LONG, "path given: N = 150 to 200") \
    K(STEPS_MOST, "path given: N = 200") \
    K(PATH_LONGEST, "path given: exactly 100,000 m") \
    K(PATH_METRE, "path given: 1 m") \
    K(NORTH_EAST, "path given: to the north-east") \
    K(NORTH_WEST, "path given: to the north-west") \
    K(SOUTH_EAST, "path given: to the south-east") \
    K(SOUTH_WEST, "path given: to the south-west") \
    K(PLACE_5, "refusal 5 at a sample above 0") \
    K(PLACE_6, "refusal 6 at a sample above 0") \
    K(PLACE_LAST, "refusal at the last sample") \
    K(ROW_BEYOND, "row refused at a sample above its own") \
    K(MAST_FIRST, "refusal 8 before one at a sample") \
    K(SECOND_END, "refusal 4 for the second end only") \
    K(OTHER_ZONE, "refusal 4 for the zone only") \
    K(ONE_POINT, "refusal 7 for Q = 0") \
    K(TOO_FAR, "refusal 7 for Q > 10,000,000,000") \
    K(WEIGHTLESS, "reading: weightless corner, no height") \
    K(VOTE_ROWS, "vote: two codes, row by row") \
    K(VOTE_COLUMNS, "vote: two codes, column by column") \
    K(VOTE_CROSSWISE, "vote: two codes, crosswise") \
    K(VOTE_THREE, "vote: two codes, three corners to one") \
    K(VOTE_OUTVOTED, "vote: heaviest corner outvoted") \
    K(VOTE_TIE, "vote: tie off the lines") \
    K(VOTE_TIE_ON_LINE, "vote: tie on a line") \
    K(VOTE_TIE_LATER, "vote: tie to a corner after the first") \
    K(VOTE_AGREED, "vote: one code, a weightless corner of another") \
    K(TOP, "reading: 8190 m, the highest") \
    K(LAST_COLUMN, "reading: last column of a rectangle") \
    K(LAST_ROW, "reading: last row of a rectangle") \
    K(ROW_29, "reading: in the 29th row") \
    K(NOWHERE, "refusal 5 for rectangle 0") \
    K(SEAM_OWN, "seam: own taken, one beside reads otherwise") \
    K(SEAM_WEST, "seam: west taken, south reads otherwise") \
    K(SEAM_SOUTH, "seam: south taken, south-west reads otherwise") \
    K(COLUMN_15, "seam: read from one word of column 15") \
    K(COLUMN_15_MEAN, "seam: read as a mean of two of column 15") \
    K(ROW_31, "seam: read from one word of row 31") \
    K(ROW_31_MEAN, "seam: read as a mean of two of row 31") \
    K(WORD_512, "seam: read from word 512") \
    K(FILE_END, "seam: read, weightless corner beyond the file") \
    K(COLUMN_99, "seam: in column 99, read from one beside") \
    K(FINAL_ROW, "seam: in the last row, read from one beside") \
    K(ROW_0_CORNER, "seam: corner in row 0, read from the west") \
    K(COLUMN_0_CORNER, "seam: corner in column 0, read from the south") \
    K(BARE_WESTERN, "refusal 5 on a western edge only") \
    K(BARE_SOUTHERN, "refusal 5 on a southern edge only") \
    K(BARE_CORNER, "refusal 5 in a corner") \
    K(WESTERN_ONLY, "refusal 5, western edge, another one covered") \
    K(SOUTHERN_ONLY, "refusal 5, southern edge, another one covered") \
    K(COLUMN_0_EDGE, "refusal 5 in column 0, n - 1 covered") \
    K(COLUMN_0_FAR, "refusal 5 in column 0, n - 101 covered") \
    K(ROW_0_EDGE, "refusal 5 in row 0 on the southern edge") \
    K(WEST_OF_1, "refusal 5 on rectangle 1's western edge") \
    K(SOUTH_OF_100, "refusal 5 on rectangle 100's southern edge") \
    K(CORNER_OF_101, "refusal 5 in rectangle 101's corner") \
    K(EAST_OF_SEAM, "refusal 5, wx = 0 and fx > 0, west covered") \
    K(METRE_EAST, "refusal 5, 1 m east of a seam, west covered") \
    K(NORTH_OF_SEAM, "refusal 5, wy = 0 and fy > 0, south covered") \
    K(METRE_NORTH, "refusal 5, 1 m north of a seam, south covered") \
    K(MISSING_WEST, "refusal 6 from the west") \
    K(MISSING_SOUTH, "refusal 6 from the south") \
    K(MISSING_SOUTH_WEST, "refusal 6 from the south-west") \
    K(OWN_MISSING, "refusal 6 from own, one beside has heights") \
    K(BESIDE_MISSING, "refusal 6 from one beside, next has heights") \
    K(EASTERN_BOUND, "refusal 4 just east of covered ground") \
    K(NORTHERN_BOUND, "refusal 4 just north of covered ground") \
    K(SPOT_LENGTH_OPENED, "spot: refusal 1 where 2 would hold") \
    K(SPOT_LENGTH_FIRST, "spot: refusal 1 where M is bad") \
    K(SPOT_OPENED_FIRST, "spot: refusal 2 where M is bad") \
    K(SPOT_M_LOW, "spot: refusal 3 for M below 6") \
    K(SPOT_M_5, "spot: refusal 3 for M = 5") \
    K(SPOT_M_HIGH, "spot: refusal 3 for M above the record count") \
    K(SPOT_M_ONE_ABOVE, "spot: refusal 3 for M one above the count") \
    K(SPOT_M_GROUND, "spot: refusal 3 for M, not on the ground") \
    K(SPOT_M_ZONE, "spot: refusal 3 for M, of another zone") \
    K(SPOT_M_BARE, "spot: refusal 3 for M below 6, entries 0") \
    K(SPOT_M_RECORD, "spot: refusal 3 for M, entry has a record") \
    K(SPOT_M_BEYOND, "spot: refusal 3 for M, entry beyond the file") \
    K(SPOT_ZONE_FIRST, "spot: refusal 4 for the zone, entry bad") \
    K(SPOT_ENTRY_1, "spot: refusal 3 for an entry of 1") \
    K(SPOT_ENTRY_6, "spot: refusal 3 for an entry of 6") \
    K(SPOT_ENTRY_ONE_ABOVE, "spot: refusal 3 for an entry of M + 1") \
    K(SPOT_ENTRY_IN_FILE, "spot: refusal 3, entry above M has a record") \
    K(SPOT_ENTRY_BEYOND, "spot: refusal 3, entry above the record count") \
    K(SPOT_ENTRY_MISSING, "spot: refusal 3, entry's record lacks a height") \
    K(SPOT_ENTRY_ALONE, "spot: refusal 3, entries beside the bad one 0") \
    K(SPOT_OWN_WEST, "spot: refusal 3 for own, west has a record") \
    K(SPOT_OWN_SOUTH, "spot: refusal 3 for own, south has a record") \
    K(SPOT_BESIDE_NEXT, "spot: refusal 3 for one beside, next has one") \
    K(SPOT_M_6, "spot: refusal 5 with M = 6") \
    K(SPOT_EAST_OF_SEAM, "spot: refusal 5, wx = 0 and fx > 0, west bad") \
    K(SPOT_NORTH_OF_SEAM, "spot: refusal 5, wy = 0 and fy > 0, south bad") \
    K(SPOT_COLUMN_0, "spot: refusal 5 in column 0, n - 1 bad") \
    K(SPOT_RECTANGLE_0, "spot: refusal 5 in rectangle 0, position 1 bad") \
    K(SPOT_READ_7, "spot: read, entry 7") \
    K(SPOT_READ_M, "spot: read, entry M") \
    K(SPOT_READ_COUNT, "spot: read, M is the record count") \
    K(SPOT_OFF_SEAM, "spot: read, one beside bad, not on its seam") \
    K(SPOT_WEIGHTLESS, "spot: read, weightless corner, no height") \
    K(SPOT_SHARED, "spot: read, record of another rectangle too") \
    K(SPOT_ONLY_LOW, "spot: read, only fault an entry below 7") \
    K(SPOT_ONLY_HIGH, "spot: read, only fault an entry above M") \
    K(SPOT_ONLY_TWICE, "spot: read, only fault another entry twice") \
    K(SPOT_ONLY_STRAY, "spot: read, only fault in 100 x rows to 3071") \
    K(UPLOAD_NONE, "upload given: 0 points") \
    K(UPLOAD_ONE, "upload given: 1 point") \
    K(UPLOAD_255, "upload given: 255 points") \
    K(UPLOAD_256, "upload given: 256 points") \
    K(UPLOAD_NULL, "upload given: a list is a null pointer") \
    K(UPLOAD_EXACT, "upload given: no room after the points") \
    K(ROOM_HEIGHTS, "upload given: room after the heights") \
    K(ROOM_CODES, "upload given: room after the codes") \
    K(ROOM_REFUSALS, "upload given: room after the refusals") \
    K(ROOM_VAST, "upload given: room of 2^32 and more") \
    K(ALL_READ, "upload given: all of 2 or more read") \
    K(ALL_REFUSED, "upload given: all of 2 or more refused") \
    K(FIRST_REFUSED, "upload given: first refused, others read") \
    K(LAST_REFUSED, "upload given: last refused, others read") \
    K(POINT_READ, "point of an upload: read") \
    K(POINT_4, "point of an upload: refusal 4") \
    K(POINT_5, "point of an upload: refusal 5") \
    K(POINT_6, "point of an upload: refusal 6") \
    K(POINT_CLEARED, "point of an upload: old height cleared") \
    K(MISFIT_257, "refusal 10 for 257 points only") \
    K(MISFIT_MORE, "refusal 10 for more northings only") \
    K(MISFIT_FEWER, "refusal 10 for fewer northings only") \
    K(MISFIT_HEIGHTS, "refusal 10 for short heights only") \
    K(MISFIT_CODES, "refusal 10 for short codes only") \
    K(MISFIT_REFUSALS, "refusal 10 for short refusals only") \
    K(MISFIT_VAST, "refusal 10 for a count of 2^32 and more") \
    K(MISFIT_NULL, "refusal 10 beside a null pointer") \
    K(LENGTH_FIRST, "refusal 1 where 10 would hold") \
    K(OPENED_FIRST, "refusal 2 where 10 would hold") \
    K(INDEX_FIRST, "refusal 3 where 10 would hold") \
    K(LOOSE, "passed: loose records") \
    K(ABOVE, "passed: records above M") \
    K(ALL_COVERED, "passed: every rectangle covered") \
    K(NONE_COVERED, "passed: no rectangle covered") \
    K(SMALLEST, "passed: 6 records") \
    K(LARGEST, "passed: 4096 records")

#define KIND_ENUM(name, text) name,
enum kind { KINDS(KIND_ENUM) KIND_COUNT };

/* The bit of a number, in a choice of some numbers. */
#define ONLY(number) (1u << (number))

/* tally.c */
void count_if(bool holds, enum kind kind);
bool weightless_missing(const struct rules_corner corners[4]);
void print_counts(const char *name, const uint64_t *counts, int count);
bool lacks(uint64_t count, const char *what, const char *which, int number);

/* tally_seams.c */
const char *from_name(enum rules_from from);
uint32_t tally_point(struct rules_file file, struct janlishuk_point point, uint32_t refusal);
uint32_t tally_samples(struct rules_file file, const struct question *question, uint64_t n);
void tally_taken(enum call call, uint32_t taken);
void print_seams(void);
bool seams_lack(void);

/* tally_votes.c */
void tally_vote(const struct rules_corner corners[4], uint64_t code);
void print_votes(void);
bool votes_lack(void);

/* tally_spots.c */
bool tally_spot(const struct file *file, const struct question *question, uint32_t refusal);
void print_spots(void);
bool spots_lack(void);

#endif
