/* The rules of document 01, and of requests a), b) and c) of document 02, a second time, in plain C and from the documents alone. The
 * answers have the types of janlishuk.h, so that they can be compared field by field with the library's; nothing else of the library is
 * used. */
#ifndef RULES_H
#define RULES_H

#include <stdbool.h>
#include <stddef.h>
#include <stdint.h>

#include "janlishuk.h"

#define RULES_NO_HEIGHT 8191

/* A file as a call is asked with it: its bytes, their number, and the base and zone it is opened with. */
struct rules_file {
    const uint8_t *bytes;
    uint64_t length;
    uint64_t base;
    uint64_t zone;
};

/* Where a point on the ground lies: the column Ix and the row Iy of its own rectangle, wx and wy in it, and fx and fy. */
struct rules_place {
    uint64_t ix, iy;
    uint64_t wx, wy;
    uint64_t fx, fy;
};

/* The rectangles that a point may be read from, in the order in which they are tried: its own and three beside it. RULES_NONE stands for
 * none of them. */
enum rules_from { RULES_OWN, RULES_WEST, RULES_SOUTH, RULES_SOUTH_WEST, RULES_NONE };

/* A rectangle, and the column (0 to 15) and row (0 to 31) of the word in its record that is a point's south-western corner. */
struct rules_seat {
    uint64_t rectangle;
    uint64_t column;
    uint64_t row;
};

/* One of the four corners of a reading. */
struct rules_corner {
    uint64_t weight;
    uint64_t elevation;
    uint64_t code;
};

/* The five lists that an upload is lent: the two of points, the three that it writes to, and how many entries each has. */
struct rules_lists {
    const uint32_t *eastings;
    uint64_t eastings_count;
    const uint32_t *northings;
    uint64_t northings_count;
    uint32_t *heights;
    uint64_t heights_room;
    uint8_t *codes;
    uint64_t codes_room;
    uint8_t *refusals;
    uint64_t refusals_room;
};

/* What the clear test needs of a path, in millimetres: N, the first and last height rounded down, and N (T + G) of each sample. */
struct rules_sight {
    int64_t n;
    int64_t first;
    int64_t last;
    int64_t need[JANLISHUK_ROOM];
};

/* One function for each exported call; what comes back is told in rules.c. */
struct janlishuk_check_answer rules_check(struct rules_file file);
struct janlishuk_name_answer rules_name(uint64_t base, uint64_t zone);
struct janlishuk_base_answer rules_base(uint64_t northing);
struct janlishuk_read_answer rules_read(struct rules_file file, struct janlishuk_point point);
struct janlishuk_read_answer rules_spot(struct rules_file file, struct janlishuk_point point);
struct janlishuk_upload_answer rules_upload(struct rules_file file, struct rules_lists lists);
struct janlishuk_engine_point_answer rules_engine_point(struct rules_file file, struct janlishuk_point point);
struct janlishuk_profile_answer rules_profile(struct rules_file file, struct janlishuk_point first, struct janlishuk_point second);
struct janlishuk_verdict_answer rules_verdict(struct rules_file file, struct janlishuk_point first, struct janlishuk_point second,
                                              uint64_t a, uint64_t b);
struct janlishuk_plan_answer rules_plan(struct rules_file file, struct janlishuk_point first, struct janlishuk_point second,
                                        uint64_t la, uint64_t lb);
struct janlishuk_engine_row_answer rules_engine_row(struct rules_file file, struct janlishuk_point first, struct janlishuk_point second,
                                                    uint64_t i);

/* Parts of the rules, for making files and questions and for counting what came up. */
uint64_t rules_boundary(uint64_t base);
uint64_t rules_rows(uint64_t base);
bool rules_on_ground(uint64_t base, struct janlishuk_point point);
uint64_t rules_rectangle(uint64_t base, struct janlishuk_point point);
uint64_t rules_word(uint64_t base, struct janlishuk_point point);
uint64_t rules_position(const uint8_t *bytes, uint64_t n);
bool rules_highest_holds(struct rules_file file);
bool rules_entry_holds(struct rules_file file, uint64_t entry);
uint64_t rules_record(struct rules_file file, uint64_t rectangle);
struct rules_place rules_place(uint64_t base, struct janlishuk_point point);
bool rules_allowed(struct rules_place place, enum rules_from from);
struct rules_seat rules_seat(struct rules_place place, enum rules_from from);
enum rules_from rules_taken(struct rules_file file, struct janlishuk_point point);
uint64_t rules_entry_met(struct rules_file file, struct janlishuk_point point);
void rules_corners(struct rules_file file, struct janlishuk_point point, enum rules_from from, struct rules_corner corners[4]);
struct janlishuk_read_answer rules_read_from(struct rules_file file, struct janlishuk_point point, enum rules_from from);
bool rules_lists_fit(struct rules_lists lists);
uint64_t rules_square(struct janlishuk_point first, struct janlishuk_point second);
uint64_t rules_steps(uint64_t q);
struct janlishuk_point rules_sample(struct janlishuk_point first, struct janlishuk_point second, uint64_t n, uint64_t i);
uint64_t rules_bulge(uint64_t q, uint64_t n, uint64_t i);
struct rules_sight rules_sight(const struct janlishuk_profile_answer *profile, uint64_t q);
int64_t rules_spare(const struct rules_sight *sight, int64_t i, int64_t a, int64_t b);
bool rules_clear(const struct rules_sight *sight, int64_t a, int64_t b);

#endif
