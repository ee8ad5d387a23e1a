/* Making whole files: which rectangles they cover, in which records, and what the ground is like. */
#include <string.h>

#include "second.h"

/* Unit lines of the widest and longest ground: 100 x 15 to the east and 29 x 31 to the north, and the last of each. */
#define EAST_LINES 1501
#define NORTH_LINES 900

/* Ground in the making: an elevation is the sum of what stands for its two unit lines and a drawn part, and so is a code. */
struct ground {
    int32_t east[EAST_LINES];
    int32_t north[NORTH_LINES];
    uint8_t code_east[EAST_LINES];
    uint8_t code_north[NORTH_LINES];
    uint32_t noise;
    uint32_t drawn_codes;
    bool flat;
};

static uint8_t kept[MOST_BYTES];
static struct ground ground;

/* Writes a 16-bit number, high byte first. */
void put(uint8_t *two, uint32_t number)
{
    two[0] = (uint8_t)(number / 256);
    two[1] = (uint8_t)(number % 256);
}

/* A value for all bytes of records that no rectangle has: often such that none of their words has a height. */
int draw_filler(void)
{
    return chance(35) ? 0xFF : (int)below(256);
}

/* Covers the rectangles of a box, but not rectangle 0, nor about `percent_left_out` of a hundred. */
static void cover_box(struct file *file, struct box box, uint32_t percent_left_out)
{
    for (uint32_t iy = box.south; iy < box.south + box.rows; iy++)
        for (uint32_t ix = box.west; ix < box.west + box.columns; ix++)
            if ((ix != 0 || iy != 0) && !(percent_left_out > 0 && chance(percent_left_out)))
                file->covered[file->covered_count++] = (uint16_t)(100 * iy + ix);
    file->home = box;
}

/* A box of some size somewhere on the ground, often at an edge of it. */
static struct box draw_box(uint32_t columns, uint32_t rows, uint32_t all_rows)
{
    struct box box = {.columns = columns, .rows = rows};
    box.west = chance(30) ? 0 : chance(30) ? 100 - columns : below(100 - columns + 1);
    box.south = chance(30) ? 0 : chance(30) ? all_rows - rows : below(all_rows - rows + 1);
    return box;
}

/* Covers single rectangles far apart; home is one of them. */
static void cover_scattered(struct file *file, uint32_t all_rows)
{
    uint32_t percent = chance(70) ? 2 : 50;
    for (uint32_t n = 1; n < 100 * all_rows; n++)
        if (chance(percent))
            file->covered[file->covered_count++] = (uint16_t)n;
    uint32_t home = file->covered_count > 0 ? file->covered[below(file->covered_count)] : 1;
    file->home = (struct box){.west = home % 100, .south = home / 100, .columns = 1, .rows = 1};
}

/* Covers a rectangle that is not covered yet. */
static void cover_one(struct file *file, uint32_t rectangle)
{
    for (uint32_t k = 0; k < file->covered_count; k++)
        if (file->covered[k] == rectangle)
            return;
    file->covered[file->covered_count++] = (uint16_t)rectangle;
}

/* A column or a row of rectangles: often the first, the one after it or the last. */
static uint32_t draw_line(uint32_t count)
{
    return chance(15) ? 0 : chance(20) ? 1 : chance(12) ? count - 1 : below(count);
}

/* Covers some of the four rectangles about a corner, numbers n, n - 1, n - 100 and n - 101 where there are such: any choice of them, or
 * often the last alone, or the third with or without it. In column 0 two of them lie at the other end of the ground. */
static void cover_about(struct file *file, uint32_t own)
{
    uint32_t chosen = chance(20) ? 1u << RULES_SOUTH_WEST : chance(20) ? (below(2) * 2 + 1) << RULES_SOUTH : below(16);
    for (uint32_t k = 0; k < RULES_NONE; k++)
        if (own > steps_back[k] && (chosen >> k & 1) != 0)
            cover_one(file, own - steps_back[k]);
}

/* Whether a corner has a rectangle about it in common with a remembered one. */
static bool near_corner(const struct file *file, uint32_t ix, uint32_t iy)
{
    for (uint32_t k = 0; k < file->corner_count; k++) {
        uint32_t column = file->corners[k] % 100;
        uint32_t row = file->corners[k] / 100;
        if (ix + 1 >= column && ix <= column + 1 && iy + 1 >= row && iy <= row + 1)
            return true;
    }
    return false;
}

/* Covers rectangles about some corners, which are remembered; home is about the last of them. */
static void cover_corners(struct file *file, uint32_t all_rows)
{
    uint32_t tries = between(2, MOST_CORNERS);
    for (uint32_t k = 0; k < tries; k++) {
        uint32_t ix = draw_line(100);
        uint32_t iy = draw_line(all_rows);
        uint32_t own = 100 * iy + ix;
        if (near_corner(file, ix, iy))
            continue;
        cover_about(file, own);
        file->corners[file->corner_count++] = own;
        file->home = (struct box){.west = ix - (ix > 0), .south = iy - (iy > 0), .columns = 1 + (ix > 0), .rows = 1 + (iy > 0)};
    }
}

/* Chooses the rectangles that a file covers: none, a few, some here and there, any about some corners, about a hundred side by side with or
 * without gaps, or every one. Files that are to be damaged are mostly small, and those to be damaged about corners have corners. */
static void cover(struct file *file)
{
    static const uint32_t few[5][2] = {{1, 1}, {2, 1}, {1, 2}, {2, 2}, {3, 2}};
    static const uint32_t hundred[5][2] = {{14, 7}, {15, 7}, {16, 7}, {10, 10}, {8, 12}};
    uint32_t all_rows = (uint32_t)rules_rows(file->base);
    const uint32_t *small = few[below(5)];
    const uint32_t *large = hundred[below(5)];
    uint32_t kind = file->damage == WHOLE ? below(100) : below(50);
    file->covered_count = 0;
    file->corner_count = 0;
    if (file->damage == CORNERED || kind < 26)
        cover_corners(file, all_rows);
    else if (kind < 32)
        cover_box(file, draw_box(2, 2, all_rows), 100);
    else if (kind < 40)
        cover_box(file, draw_box(small[0], small[1], all_rows), 0);
    else if (kind < 44)
        cover_scattered(file, all_rows);
    else if (kind < 77)
        cover_box(file, draw_box(large[0], large[1], all_rows), 0);
    else if (kind < 91)
        cover_box(file, draw_box(large[0], large[1], all_rows), between(1, 5));
    else
        cover_box(file, draw_box(100, all_rows, all_rows), kind < 98 ? 0 : 2);
}

/* How many records a file has beyond those that the rectangles need: loose ones below M, and others above it. */
static void draw_records(const struct file *file, uint32_t *highest, uint32_t *records)
{
    *highest = 6 + file->covered_count;
    if (chance(40))
        *highest += chance(50) ? 1 : between(1, 40);
    *records = *highest;
    if (chance(30))
        *records += chance(50) ? 1 : between(1, 20);
    if ((file->damage == WHOLE && chance(4)) || (file->damage == ENTRY_TWICE && chance(20))) {
        *records = 4096;
        *highest = chance(70) ? 4096 : between(*highest, 4096);
    }
}

/* Gives every covered rectangle a record of its own from 7 to M, mostly not in order, and writes the index. */
static void write_index(struct file *file, uint32_t highest, uint32_t record_of[MOST_COVERED])
{
    static uint32_t pool[4096];
    uint32_t count = highest - 6;
    for (uint32_t k = 0; k < count; k++)
        pool[k] = 7 + k;
    if (chance(80))
        for (uint32_t k = 0; k + 1 < count; k++) {
            uint32_t other = between(k, count - 1);
            uint32_t number = pool[k];
            pool[k] = pool[other];
            pool[other] = number;
        }
    memset(file->bytes, 0, 6 * 1024);
    for (uint32_t k = 0; k < file->covered_count; k++) {
        record_of[k] = pool[k];
        put(file->bytes + 2 * (file->covered[k] - 1), pool[k]);
    }
    put(file->bytes + 2 * (3072 - 1), highest);
}

/* A walk up and down from unit line to unit line, by at most `most` at each. */
static void walk(int32_t *lines, uint32_t count, int32_t start, uint32_t most)
{
    lines[0] = start;
    for (uint32_t k = 1; k < count; k++)
        lines[k] = lines[k - 1] + (int32_t)below(2 * most + 1) - (int32_t)most;
}

/* A bowl around a unit line, bent such that a straight path over it just touches it everywhere: 1/68 m for a unit squared. */
static void bowl(int32_t *lines, uint32_t count, int32_t start, uint32_t middle)
{
    for (uint32_t k = 0; k < count; k++) {
        int32_t away = (int32_t)k - (int32_t)middle;
        lines[k] = start + away * away / 68;
    }
}

/* Chooses the elevations: flat, hills, a bowl about the home, rough, or random; most with a little drawn part. Where corners are remembered
 * they are mostly rough or random, so that records that meet there differ. */
static void draw_elevations(const struct file *file)
{
    static const uint32_t levels[6] = {0, 1, 100, 8000, 8189, 8190};
    uint32_t kind = file->corner_count > 0 && chance(75) ? between(80, 99) : below(100);
    uint32_t level = chance(40) ? levels[below(6)] : below(8191);
    walk(ground.north, NORTH_LINES, 0, 0);
    walk(ground.east, EAST_LINES, (int32_t)level, 0);
    ground.noise = 1;
    ground.flat = kind < 30;
    if (kind < 30)
        return;
    if (kind < 50) {
        uint32_t most = between(1, 5);
        walk(ground.east, EAST_LINES, 2000, most);
        walk(ground.north, NORTH_LINES, 2000, most);
        ground.noise = chance(50) ? 1 : between(2, 12);
    } else if (kind < 80) {
        bowl(ground.east, EAST_LINES, (int32_t)below(400), 15 * file->home.west + 15 * file->home.columns / 2);
        bowl(ground.north, NORTH_LINES, (int32_t)below(400), 31 * file->home.south + 31 * file->home.rows / 2);
        ground.noise = chance(30) ? 1 : between(2, 40);
    } else if (kind < 92) {
        ground.noise = between(2, 60);
    } else {
        walk(ground.east, EAST_LINES, 0, 0);
        ground.noise = 8191;
    }
}

/* Chooses the codes: one for all, drawn for every word from a choice of two to eight codes, or in stripes and patches. */
static void draw_codes(void)
{
    uint32_t kind = below(4);
    uint32_t same = below(8);
    uint32_t kinds = between(2, 8);
    ground.drawn_codes = kind == 0 ? kinds : 0;
    for (uint32_t k = 0; k < EAST_LINES; k++)
        ground.code_east[k] = (uint8_t)(kind == 1 ? same : chance(60) && k > 0 ? ground.code_east[k - 1] : below(kinds));
    for (uint32_t k = 0; k < NORTH_LINES; k++)
        ground.code_north[k] = (uint8_t)(kind != 3 ? 0 : chance(60) && k > 0 ? ground.code_north[k - 1] : below(kinds));
}

/* Writes the 16 by 32 words of a rectangle into its record. */
static void write_record(uint8_t *record, uint32_t rectangle)
{
    uint32_t east = 15 * (rectangle % 100);
    uint32_t north = 31 * (rectangle / 100);
    bool drawn = ground.noise > 1 || ground.drawn_codes > 0;
    for (uint32_t k = 0; k < 512; k++) {
        uint32_t x = east + k % 16;
        uint32_t y = north + k / 16;
        uint64_t bits = drawn ? draw() : 0;
        int32_t elevation = ground.east[x] + ground.north[y] + (int32_t)(((bits & 0xFFFFFFFF) * ground.noise) >> 32);
        elevation = elevation < 0 ? 0 : elevation > 8190 ? 8190 : elevation;
        uint32_t striped = (uint32_t)(ground.code_east[x] + ground.code_north[y]) % 8;
        uint32_t code = ground.drawn_codes > 0 ? (uint32_t)(bits >> 61) % ground.drawn_codes : striped;
        put(record + 2 * k, 8192 * code + (uint32_t)elevation);
    }
}

/* Takes the height of a word away, and remembers where while there is room. */
static void take_height(struct file *file, uint32_t rectangle, uint8_t *record, uint32_t word)
{
    uint8_t *two = record + 2 * (word - 1);
    put(two, 256u * (two[0] | 0x1F) + 0xFF);
    if (file->missing_count < MOST_MISSING)
        file->missing[file->missing_count++] = (struct missing){.rectangle = rectangle, .word = word};
}

/* Takes the heights of an edge of a rectangle, mostly of the last column or the last row, of its four corners, or of all its words; in some
 * cases only of about half of these words. */
static void take_many(struct file *file, uint32_t rectangle, uint8_t *record)
{
    uint32_t kind = chance(40) ? below(2) : below(6);
    uint32_t percent = chance(70) ? 100 : 50;
    for (uint32_t word = 1; word <= 512; word++) {
        bool corner = word == 1 || word == 16 || word == 497 || word == 512;
        const bool of_kind[6] = {word % 16 == 0, word > 512 - 16, word % 16 == 1, word <= 16, corner, true};
        if (of_kind[kind] && chance(percent))
            take_height(file, rectangle, record, word);
    }
}

/* Takes heights of about every second rectangle, mostly of an edge. */
static void take_edges(struct file *file, const uint32_t record_of[MOST_COVERED])
{
    for (uint32_t k = 0; k < file->covered_count; k++)
        if (chance(45))
            take_many(file, file->covered[k], file->bytes + 1024 * (record_of[k] - 1));
}

/* Takes heights here and there: in most files none, else a few of many words, one word in twenty of some rectangles, or edges, and these in
 * many of the files with remembered corners. */
static void take_heights(struct file *file, const uint32_t record_of[MOST_COVERED])
{
    uint32_t kind = below(100);
    file->missing_count = 0;
    if (file->corner_count > 0 && chance(70)) {
        take_edges(file, record_of);
        return;
    }
    if (file->covered_count == 0 || kind < 55)
        return;
    uint32_t times = kind < 85 ? 1 + file->covered_count * 512 / 6000 : 1 + file->covered_count / 20;
    for (uint32_t k = 0; k < times; k++) {
        uint32_t chosen = below(file->covered_count);
        uint32_t rectangle = file->covered[chosen];
        uint8_t *record = file->bytes + 1024 * (record_of[chosen] - 1);
        if (kind < 85)
            take_height(file, rectangle, record, between(1, 512));
        else if (kind < 95)
            take_many(file, rectangle, record);
        else
            for (uint32_t j = 0; j < 25; j++)
                take_height(file, rectangle, record, between(1, 512));
    }
}

/* Makes a file: every second one whole, and the others damaged in each way in turn. */
void make_file(struct file *file, uint32_t number)
{
    static uint32_t record_of[MOST_COVERED];
    static const uint32_t zones[5] = {1, 7, 17, 59, 60};
    uint32_t highest;
    uint32_t records;
    file->bytes = kept;
    file->number = number;
    file->damage = number % 2 == 0 ? WHOLE : (enum damage)(1 + number / 2 % (DAMAGE_KINDS - 1));
    file->base = 4 * below(21);
    file->zone = chance(50) ? zones[below(5)] : between(1, 60);
    cover(file);
    draw_records(file, &highest, &records);
    file->length = 1024 * (size_t)records;
    write_index(file, highest, record_of);
    memset(file->bytes + 6 * 1024, draw_filler(), file->length - 6 * 1024);
    draw_elevations(file);
    draw_codes();
    for (uint32_t k = 0; k < file->covered_count; k++)
        write_record(file->bytes + 1024 * (record_of[k] - 1), file->covered[k]);
    take_heights(file, record_of);
    file->kept = file->length;
    plant_paths(file, ground.flat);
    damage_file(file);
}
