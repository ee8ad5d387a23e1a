/* What the parts of the second program share: drawn numbers, made files, drawn questions, lent lists, compared answers and the count of
 * them. */
#ifndef SECOND_H
#define SECOND_H

#include <stdbool.h>
#include <stddef.h>
#include <stdint.h>

#include "janlishuk.h"
#include "rules.h"

/* Most rectangles that a file can cover: 29 rows of 100, without rectangle 0. */
#define MOST_COVERED 2899
/* Most bytes that are kept of a file: 4097 records and some to grow by. */
#define MOST_BYTES (4104 * 1024)
/* Most missing heights that are remembered of a file. */
#define MOST_MISSING 64
/* Most corners of rectangles that are remembered of a file. */
#define MOST_CORNERS 24
/* Most broken positions that are remembered of a file. */
#define MOST_BROKEN 16
/* Most planted paths that are remembered of a file. */
#define MOST_PLANTED 8
/* Bytes of the page that each list of an upload is lent in: a page of x86-64. */
#define LIST_BYTES 4096

/* Every kind of damage: its name here, its name in the table, and the refusal that it must have led to at least once. */
#define DAMAGES(D) \
    D(WHOLE, "none", 0) \
    D(RAGGED, "length not a multiple of 1024", 1) \
    D(SHORT, "5 records", 1) \
    D(LONG, "4097 records", 1) \
    D(EMPTY, "0 bytes", 1) \
    D(HIGHEST_LOW, "M below 6", 3) \
    D(HIGHEST_HIGH, "M above the record count", 3) \
    D(ENTRY_LOW, "entries of 1 to 6", 3) \
    D(ENTRY_HIGH, "entries above M", 3) \
    D(ENTRY_TWICE, "an entry repeated", 3) \
    D(STRAY, "a number in 100 x rows to 3071", 3) \
    D(CUT, "cut at a random byte", 1) \
    D(GROWN, "grown by random bytes", 1) \
    D(BITS, "random bits turned", 3) \
    D(STAMPED, "name stamped in the first bytes", 3) \
    D(NOISE, "all bytes random", 3) \
    D(SHIFTED, "index shifted", 3) \
    D(SWAPPED, "index low byte first", 3) \
    D(LITTERED, "most of the index random", 3) \
    D(CORNERED, "bad entries about corners", 3) \
    D(VAST, "length of 2^32 and a whole file", 1)

#define DAMAGE_ENUM(name, text, refusal) name,
enum damage { DAMAGES(DAMAGE_ENUM) DAMAGE_KINDS };

/* A box of rectangles: the most south-western one, and how many there are to the east and to the north. */
struct box {
    uint32_t west;
    uint32_t south;
    uint32_t columns;
    uint32_t rows;
};

/* A word of a rectangle that has no height, numbered from 1. */
struct missing {
    uint32_t rectangle;
    uint32_t word;
};

/* A path, and masts for it: for a planted one, masts with which it touches the ground or nearly does. */
struct path {
    struct janlishuk_point first;
    struct janlishuk_point second;
    uint32_t a;
    uint32_t b;
};

/* A made file. The library is lent `lent`, which it cannot write to; the rules read `bytes`. Only the first `kept` bytes are kept where
 * the length is vast. `home` is the part of the ground where most of the questions are asked. A corner is remembered by the rectangle that
 * it is the south-western corner of. A position is remembered as broken where the damage was done to it, but not M's. */
struct file {
    uint8_t *bytes;
    const uint8_t *lent;
    size_t length;
    size_t kept;
    uint32_t base;
    uint32_t zone;
    uint32_t number;
    enum damage damage;
    struct box home;
    uint32_t covered_count;
    uint16_t covered[MOST_COVERED];
    uint32_t corner_count;
    uint32_t corners[MOST_CORNERS];
    uint32_t broken_count;
    uint32_t broken[MOST_BROKEN];
    uint32_t missing_count;
    struct missing missing[MOST_MISSING];
    uint32_t planted_count;
    struct path planted[MOST_PLANTED];
};

/* Pages that a file's bytes are lent in: all that is mapped, the inner pages between the first and the last, which cannot be touched, and
 * the place of the file's first byte. */
struct pages {
    uint8_t *area;
    size_t size;
    uint8_t *inner;
    size_t inner_size;
    uint8_t *bytes;
};

enum call { CHECK, NAME, BASE, READ, SPOT, UPLOAD, ENGINE_POINT, PROFILE, VERDICT, PLAN, ENGINE_ROW, CALLS };

/* The lists of an upload, in the order of the call: two of points, then three that it writes to. */
enum list { LIST_EASTINGS, LIST_NORTHINGS, LIST_HEIGHTS, LIST_CODES, LIST_REFUSALS, LISTS };

/* How a list is lent: with its last entry the last before the page beyond, with its first entry the first after the page before, as a
 * pointer to the page beyond, where nothing can be touched, or as a null pointer. */
enum lending { TO_END, FROM_START, BEYOND, AS_NULL };

/* The lists of an upload: how many entries the call is told that each has, and how it is lent. What is in them is kept in lists.c. */
struct survey {
    size_t count[LISTS];
    enum lending lending[LISTS];
};

/* A question: a call and its arguments. A point is in `first`, and so is the northing of a base; `a` and `b` are the masts or the mast
 * limits, and `a` is the sample of an engine row. */
struct question {
    enum call call;
    uint32_t base;
    uint32_t zone;
    struct janlishuk_point first;
    struct janlishuk_point second;
    uint32_t a;
    uint32_t b;
    struct survey survey;
};

union answer {
    struct janlishuk_check_answer check;
    struct janlishuk_name_answer name;
    struct janlishuk_base_answer base;
    struct janlishuk_read_answer read;
    struct janlishuk_upload_answer upload;
    struct janlishuk_engine_point_answer engine_point;
    struct janlishuk_profile_answer profile;
    struct janlishuk_verdict_answer verdict;
    struct janlishuk_plan_answer plan;
    struct janlishuk_engine_row_answer engine_row;
};

/* draw.c */
void draw_seed(uint64_t seed);
uint64_t draw(void);
uint32_t below(uint32_t bound);
uint32_t between(uint32_t least, uint32_t most);
bool chance(uint32_t percent);
uint32_t far_number(void);
uint64_t square_root(uint64_t square);

/* files.c, plant.c, damage.c */
void put(uint8_t *two, uint32_t number);
int draw_filler(void);
void make_file(struct file *file, uint32_t number);
void plant_paths(struct file *file, bool flat);
uint32_t draw_litter(uint32_t highest);
void damage_file(struct file *file);
const char *damage_name(enum damage damage);
uint32_t damage_refusal(enum damage damage);
bool spots_may_differ(const struct file *file);

/* lend.c, blind.c */
void need(bool done, const char *what);
struct pages map_file(const struct file *file);
void open_pages(uint8_t *start, size_t size, int protection);
void lend_file(struct file *file);
bool same_bytes(const struct file *file);
void take_back_file(struct file *file);
bool can_ask_blind(const struct file *file, const struct question *question);
void ask_blind(const struct file *file, const struct question *question, union answer *answer);
void take_back_copy(void);

/* What the numbers of the rectangles that a point may be read from are below that of its own, in the order of rules_from. In column 0 the
 * second and the last lie at the other end of the ground. */
extern const uint32_t steps_back[RULES_NONE];

/* questions.c, seams.c, paths.c, surveys.c */
struct rules_file opened(const struct file *file, uint32_t base, uint32_t zone);
struct janlishuk_point point_at(uint32_t base, uint32_t zone, uint32_t rectangle, uint32_t east, uint32_t north);
uint32_t draw_part(void);
struct janlishuk_point in_rectangle(uint32_t base, uint32_t zone, uint32_t rectangle);
struct janlishuk_point draw_point(const struct file *file, uint32_t base, uint32_t zone);
struct janlishuk_point draw_seam_point(const struct file *file, uint32_t base, uint32_t zone);
struct janlishuk_point draw_broken_point(const struct file *file, uint32_t base, uint32_t zone);
struct path draw_seam_path(const struct file *file, uint32_t base, uint32_t zone);
struct path moved_to_edge(struct box home, uint32_t base, struct path path);
uint32_t other_zone(uint32_t zone);
struct question draw_question(const struct file *file);
bool place_path(struct box box, uint32_t base, uint32_t zone, int64_t de, int64_t dn, struct path *path);
struct path draw_path(const struct file *file, uint32_t base, uint32_t zone, bool *planted);
struct survey draw_survey(const struct file *file, uint32_t base);

/* lists.c */
size_t entry_size(enum list list);
void draw_pages(void);
size_t kept_entries(const struct survey *survey, enum list list);
void set_point(const struct survey *survey, size_t k, struct janlishuk_point point);
uint32_t entry_before(const struct survey *survey, enum list list, size_t k);
uint32_t entry_by_rules(const struct survey *survey, enum list list, size_t k);
struct rules_lists lists_of_rules(const struct survey *survey);
struct janlishuk_upload_answer upload_to_library(const struct file *file, const struct question *question);
struct janlishuk_upload_answer upload_by_rules(struct rules_file file, const struct survey *survey);
bool same_lists(void);
void print_survey(const struct survey *survey);
void print_lists(const struct survey *survey);

/* answers.c */
const char *call_name(enum call call);
void ask_library(const struct file *file, const struct question *question, union answer *answer);
void ask_rules(const struct file *file, const struct question *question, union answer *answer);
bool same_answer(enum call call, const union answer *library, const union answer *rules);
bool rules_agree(const struct file *file, const struct question *question);
void print_question(const struct file *file, const struct question *question);
void print_answers(const struct question *question, const union answer *library, const union answer *rules);

/* tally.c, tally_seams.c, tally_spots.c */
void tally_file(const struct file *file);
void tally_answer(const struct file *file, const struct question *question, const union answer *answer);
void tally_blind(uint32_t refusal);
void print_tally(void);
bool tally_lacks(void);

#endif
