/* What the parts of the maker of sessions share: drawn numbers, the files of the folder, the grammar of a line, drawn lines, and the count of what
 * came up. */
#ifndef SESSIONS_H
#define SESSIONS_H

#include <stdbool.h>
#include <stddef.h>
#include <stdint.h>
#include <stdio.h>

#include "shell.h"

/* Every fault that a file of the folder can have: its name here, its name in the table, and the number that `use` is refused with. */
#define FAULTS(F) \
    F(SOUND, "none", 0) \
    F(MISSING, "not there", 1) \
    F(FOLDER, "a folder", 1) \
    F(SHUT, "not to be read", 1) \
    F(NO_BYTES, "0 bytes", 1) \
    F(FIVE_RECORDS, "5 records", 1) \
    F(BYTE_MORE, "a byte more than whole records", 1) \
    F(BYTE_LESS, "a byte less than whole records", 1) \
    F(RECORD_TOO_MANY, "61 records", 1) \
    F(BYTE_TOO_MANY, "60 records and a byte", 1) \
    F(MOST_RECORDS, "4096 records", 1) \
    F(TOO_MANY_AND_BROKEN, "61 records, an entry repeated", 1) \
    F(HIGHEST_LOW, "M below 6", 3) \
    F(HIGHEST_HIGH, "M above the record count", 3) \
    F(ENTRY_LOW, "an entry of 1 to 6", 3) \
    F(ENTRY_HIGH, "an entry above M", 3) \
    F(ENTRY_TWICE, "an entry repeated", 3) \
    F(STRAY, "a number in 100 x rows to 3071", 3) \
    F(STAMPED, "name stamped in the first bytes", 3)

#define FAULT_ENUM(name, text, refusal) name,
enum fault { FAULTS(FAULT_ENUM) FAULT_KINDS };

/* What the ground of a file is like. */
enum relief { FLAT, HILLS, BOWL, ROUGH };

/* Where on its ground a file has records: nowhere, or in a box of 9 by 6 rectangles, about the middle of the south, where rectangle 50 is, in the
 * south-western corner, where rectangle 0 is, or in the north-eastern one. */
enum where { NOWHERE, SOUTH, SOUTH_WEST, NORTH_EAST };

/* A file of the folder: its name, where it has records, its relief, how many of a hundred rectangles of the box it does not cover, how many words
 * have no height, how many records beyond those of rectangles it has below and above M, and its fault. */
struct terrain {
    char name[FILE_NAME + 1];
    enum where where;
    enum relief relief;
    uint32_t percent_left_out;
    uint32_t missing;
    uint32_t loose;
    uint32_t unused;
    enum fault fault;
};

/* A box of ground in metres: its south-western corner and its size. */
struct area {
    uint32_t easting;
    uint32_t northing;
    uint32_t width;
    uint32_t height;
};

/* The commands, in the order of their patterns. */
enum command { USE, SITE, PATH, MASTS, COMMANDS };

/* Most parts of a pattern, and most steps within a part. */
#define MOST_PARTS 13
#define MOST_STEPS 13

/* A place in the grammar: the command, a part of its pattern, and how far into that part. Before the first byte of a line it is all 0. */
struct place {
    enum command command;
    uint32_t part;
    uint32_t step;
};

/* How far a line is one that a legal line begins with: so many bytes, the place behind them and the letter of its part in the pattern, and whether the
 * whole line is legal. */
struct walk {
    size_t length;
    struct place place;
    char part;
    bool legal;
};

/* Bytes that lead to a place. */
struct way {
    uint8_t bytes[LONGEST_LINE + 1];
    size_t length;
};

/* The letters of parts that stand for more than one byte: a NAME4, a NAME, a number. */
#define FILE_PART 'F'
#define NAME_PART 'A'
#define NUMBER_PART '9'

/* The step behind a number that is 0; behind others it is the number of their digits. */
#define BEHIND_ZERO (MOST_DIGITS + 1)

/* Room for a way to every place. */
#define MOST_WAYS 200

/* A line in the making. */
struct text {
    uint8_t bytes[256];
    size_t length;
};

/* Bytes of a file that was read. */
struct bytes {
    uint8_t *start;
    size_t length;
};

/* draw.c of tests/second */
void draw_seed(uint64_t seed);
uint64_t draw(void);
uint32_t below(uint32_t bound);
uint32_t between(uint32_t least, uint32_t most);
bool chance(uint32_t percent);

/* terrain.c */
extern const struct terrain terrains[];
extern const uint32_t terrain_count;
const struct terrain *terrain_named(const uint8_t *name);
enum fault fault_named(const uint8_t *name);
struct area area_of(const struct terrain *terrain);
uint32_t base_of(const char *name);
uint32_t zone_of(const char *name);
void make_folder(const char *folder);

/* grammar.c */
struct walk walk_line(const uint8_t *line, size_t length);
void add_byte(struct text *text, uint8_t byte);
void add_text(struct text *text, const char *more);
void add_number(struct text *text, uint32_t number);
void draw_name(struct text *text, size_t length);
uint8_t draw_byte(void);
size_t draw_ways(struct way ways[MOST_WAYS]);
void write_ways(void);

/* lines.c, measured.c */
void write_session(uint32_t number, uint32_t lines);
bool write_measured(const char *kind, uint32_t lines);

/* tally.c */
bool next_line(struct bytes *rest, struct bytes *line);
void tally_session(struct bytes session, struct bytes answers);
void print_tally(void);
void print_summary(void);
bool tally_lacks(void);

#endif
