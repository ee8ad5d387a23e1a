/* The folder of terrain files that the sessions are about: sound ones, with ground of several kinds, and faulty ones. */
#define _POSIX_C_SOURCE 200809L
#include <stdlib.h>
#include <string.h>
#include <sys/stat.h>
#include <unistd.h>

#include "rules.h"
#include "sessions.h"

/* Columns and rows of a box of rectangles, and its unit lines to the east and to the north. */
#define BOX_COLUMNS 9
#define BOX_ROWS 6
#define EAST_LINES (15 * BOX_COLUMNS + 1)
#define NORTH_LINES (31 * BOX_ROWS + 1)

/* Metres of a rectangle to the east and to the north. */
#define RECTANGLE_EAST 7500
#define RECTANGLE_NORTH 15500

/* Surface code of bare ground. */
#define BARE 2

/* The files that the sessions name, but for those that are not there. Those of one base that lie in the same box have the same places covered. */
const struct terrain terrains[] = {
    {"NK17", SOUTH, FLAT, 0, 0, 0, 0, SOUND},
    {"NK18", SOUTH, HILLS, 0, 40, 0, 0, SOUND},
    {"NK09", SOUTH, BOWL, 0, 0, 0, 0, SOUND},
    {"NK31", SOUTH, ROUGH, 15, 60, 2, 1, SOUND},
    {"NK60", NOWHERE, FLAT, 0, 0, 0, 0, SOUND},
    {"NA01", SOUTH_WEST, HILLS, 0, 20, 1, 0, SOUND},
    {"NA60", SOUTH_WEST, BOWL, 8, 0, 0, 1, SOUND},
    {"NU60", NORTH_EAST, BOWL, 0, 10, 0, 0, SOUND},
    {"NU01", NORTH_EAST, FLAT, 10, 0, 0, 0, SOUND},
    {"NK59", SOUTH, FLAT, 0, 0, 0, 0, FOLDER},
    {"NK58", SOUTH, FLAT, 0, 0, 0, 0, SHUT},
    {"NC01", SOUTH, FLAT, 0, 0, 0, 0, NO_BYTES},
    {"NC02", SOUTH, FLAT, 0, 0, 0, 0, FIVE_RECORDS},
    {"NC03", SOUTH, FLAT, 10, 0, 0, 0, BYTE_MORE},
    {"NC04", SOUTH, FLAT, 0, 0, 0, 0, BYTE_LESS},
    {"NK19", SOUTH, FLAT, 0, 0, 0, 1, RECORD_TOO_MANY},
    {"NK20", SOUTH, FLAT, 0, 0, 0, 0, BYTE_TOO_MANY},
    {"NK21", SOUTH, FLAT, 0, 0, 0, 4096 - 60, MOST_RECORDS},
    {"NK22", SOUTH, FLAT, 0, 0, 0, 1, TOO_MANY_AND_BROKEN},
    {"ND10", SOUTH, HILLS, 0, 0, 0, 0, HIGHEST_LOW},
    {"ND11", SOUTH, HILLS, 0, 0, 0, 0, HIGHEST_HIGH},
    {"ND12", SOUTH, HILLS, 10, 0, 0, 0, ENTRY_LOW},
    {"ND13", SOUTH, HILLS, 10, 0, 0, 0, ENTRY_HIGH},
    {"ND14", SOUTH, HILLS, 0, 0, 0, 0, ENTRY_TWICE},
    {"NE15", SOUTH, HILLS, 0, 0, 0, 0, STRAY},
    {"NK16", SOUTH, HILLS, 0, 0, 0, 0, STAMPED},
};
const uint32_t terrain_count = sizeof terrains / sizeof terrains[0];

/* A file in the making: its bytes, their number, its base, the rectangles that it covers with their records, and M. */
static uint8_t bytes[4097 * RECORD_BYTES];
static size_t length;
static uint32_t base;
static uint32_t covered[BOX_COLUMNS * BOX_ROWS];
static uint32_t record_of[BOX_COLUMNS * BOX_ROWS];
static uint32_t covered_count;
static uint32_t highest;

/* The file of the folder that has a name, null where none has it. */
const struct terrain *terrain_named(const uint8_t *name)
{
    for (uint32_t k = 0; k < terrain_count; k++)
        if (memcmp(terrains[k].name, name, FILE_NAME) == 0)
            return &terrains[k];
    return NULL;
}

/* Whether a fault cannot be made: nothing is shut to the superuser. */
static bool cannot_be(enum fault fault)
{
    return fault == SHUT && geteuid() == 0;
}

/* The fault of the file that has a name: that it is not there where none has it. */
enum fault fault_named(const uint8_t *name)
{
    const struct terrain *terrain = terrain_named(name);
    return terrain == NULL || cannot_be(terrain->fault) ? MISSING : terrain->fault;
}

/* The base that the name of a file says. */
uint32_t base_of(const char *name)
{
    return 4u * (uint32_t)(name[1] - 'A');
}

/* The zone that the name of a file says. */
uint32_t zone_of(const char *name)
{
    return 10u * (uint32_t)(name[2] - '0') + (uint32_t)(name[3] - '0');
}

/* The column of the most western rectangles of a box. */
static uint32_t first_column(enum where where)
{
    return where == SOUTH_WEST ? 0 : where == NORTH_EAST ? 100 - BOX_COLUMNS : 46;
}

/* The row of the most southern rectangles of a box. */
static uint32_t first_row(enum where where, uint32_t of_base)
{
    return where == NORTH_EAST ? (uint32_t)rules_rows(of_base) - BOX_ROWS : 0;
}

/* The ground of a file's box, of which some rectangles may not be covered. */
struct area area_of(const struct terrain *terrain)
{
    uint32_t of_base = base_of(terrain->name);
    return (struct area){
        .easting = 125000 + RECTANGLE_EAST * first_column(terrain->where),
        .northing = 500 * (uint32_t)rules_boundary(of_base) + RECTANGLE_NORTH * first_row(terrain->where, of_base),
        .width = RECTANGLE_EAST * BOX_COLUMNS,
        .height = RECTANGLE_NORTH * BOX_ROWS,
    };
}

/* Writes a 16-bit number, high byte first. */
static void put(uint8_t *two, uint32_t number)
{
    two[0] = (uint8_t)(number / 256);
    two[1] = (uint8_t)(number % 256);
}

/* Writes a number into a position of the index. */
static void set_entry(uint32_t n, uint32_t number)
{
    put(bytes + 2 * (n - 1), number);
}

/* Chooses the rectangles that a file covers: those of its box, but not rectangle 0, nor some that are left out. */
static void cover(const struct terrain *terrain)
{
    covered_count = 0;
    for (uint32_t k = 0; k < BOX_COLUMNS * BOX_ROWS && terrain->where != NOWHERE; k++) {
        uint32_t column = first_column(terrain->where) + k % BOX_COLUMNS;
        uint32_t row = first_row(terrain->where, base) + k / BOX_COLUMNS;
        bool left_out = terrain->percent_left_out > 0 && chance(terrain->percent_left_out);
        if (column + row > 0 && !left_out)
            covered[covered_count++] = 100 * row + column;
    }
}

/* Gives each covered rectangle a record of its own, in no order, and writes the index. */
static void write_index(const struct terrain *terrain)
{
    uint32_t pool[BOX_COLUMNS * BOX_ROWS + 16];
    uint32_t count = covered_count + terrain->loose;
    highest = 6 + count;
    for (uint32_t k = 0; k < count; k++)
        pool[k] = 7 + k;
    memset(bytes, 0, 6 * RECORD_BYTES);
    for (uint32_t k = 0; k < covered_count; k++) {
        uint32_t other = between(k, count - 1);
        record_of[k] = pool[other];
        pool[other] = pool[k];
        set_entry(covered[k], record_of[k]);
    }
    set_entry(3072, highest);
    length = RECORD_BYTES * (size_t)(highest + terrain->unused);
    memset(bytes + 6 * RECORD_BYTES, 0xFF, length - 6 * RECORD_BYTES);
}

/* Heights of unit lines: all `level`, a walk up and down, or a bowl about the middle that a straight path over it just does not touch. */
static void draw_heights(int32_t *lines, uint32_t count, enum relief relief, int32_t level)
{
    int32_t height = level;
    for (uint32_t k = 0; k < count; k++) {
        int32_t away = (int32_t)k - (int32_t)count / 2;
        if (relief == HILLS)
            height += (int32_t)below(9) - 4;
        lines[k] = relief == BOWL ? level + away * away / 55 : height;
    }
}

/* Writes the words of all covered rectangles: the heights of the two unit lines, in most reliefs with a drawn part, and a drawn code. Flat ground is
 * bare and 100 m high. */
static void write_words(enum relief relief, enum where where)
{
    static const uint32_t noise[] = {[FLAT] = 1, [HILLS] = 6, [BOWL] = 2, [ROUGH] = 60};
    int32_t east[EAST_LINES], north[NORTH_LINES];
    draw_heights(east, EAST_LINES, relief, 50);
    draw_heights(north, NORTH_LINES, relief, 50);
    for (uint32_t k = 0; k < covered_count; k++) {
        uint32_t x = 15 * (covered[k] % 100 - first_column(where)), y = 31 * (covered[k] / 100 - first_row(where, base));
        for (uint32_t word = 0; word < 512; word++) {
            int32_t height = east[x + word % 16] + north[y + word / 16] + (int32_t)below(noise[relief]);
            uint32_t code = relief == FLAT ? BARE : below(8);
            put(bytes + RECORD_BYTES * (record_of[k] - 1) + 2 * word, 8192 * code + (uint32_t)(height < 0 ? 0 : height));
        }
    }
}

/* Takes the heights of some words away. */
static void take_heights(uint32_t count)
{
    for (; count > 0; count--) {
        uint8_t *two = bytes + RECORD_BYTES * (record_of[below(covered_count)] - 1) + 2 * below(512);
        put(two, 256u * (two[0] | 0x1F) + 0xFF);
    }
}

/* A position of the index that a rectangle has: the first, the last or any. */
static uint32_t draw_position(void)
{
    uint32_t last = 100 * (uint32_t)rules_rows(base) - 1;
    return chance(30) ? 1 : chance(30) ? last : between(1, last);
}

/* A position that does not have a record already. */
static uint32_t draw_free_position(void)
{
    uint32_t n = draw_position();
    while (rules_position(bytes, n) != 0)
        n = between(1, 100 * (uint32_t)rules_rows(base) - 1);
    return n;
}

/* Does to the bytes what the fault is. */
static void damage(const struct terrain *terrain)
{
    uint32_t records = (uint32_t)(length / RECORD_BYTES);
    uint32_t stray = 100 * (uint32_t)rules_rows(base);
    switch (terrain->fault) {
    case NO_BYTES: length = 0; break;
    case FIVE_RECORDS: length = 5 * RECORD_BYTES; break;
    case BYTE_MORE:
    case BYTE_TOO_MANY: bytes[length++] = 0; break;
    case BYTE_LESS: length--; break;
    case HIGHEST_LOW: set_entry(3072, below(6)); break;
    case HIGHEST_HIGH: set_entry(3072, records + 1); break;
    case ENTRY_LOW: set_entry(draw_free_position(), between(1, 6)); break;
    case ENTRY_HIGH: set_entry(draw_free_position(), highest + 1); break;
    case TOO_MANY_AND_BROKEN:
    case ENTRY_TWICE: set_entry(draw_free_position(), between(7, highest)); break;
    case STRAY: set_entry(chance(30) ? stray : chance(30) ? 3071 : between(stray, 3071), between(1, highest)); break;
    case STAMPED: memcpy(bytes, terrain->name, FILE_NAME); break;
    default: break;
    }
}

/* Ends the program where something cannot be made. */
static void must(bool done, const char *what)
{
    if (!done) {
        perror(what);
        exit(2);
    }
}

/* Writes the bytes under a path. */
static void write_file(const char *path)
{
    FILE *file = fopen(path, "wb");
    must(file != NULL, path);
    must(fwrite(bytes, 1, length, file) == length, path);
    must(fclose(file) == 0, path);
}

/* Makes one file of a folder. */
static void make_terrain(const char *folder, const struct terrain *terrain)
{
    char path[4096];
    must(snprintf(path, sizeof path, "%s/%s", folder, terrain->name) < (int)sizeof path, folder);
    base = base_of(terrain->name);
    cover(terrain);
    write_index(terrain);
    write_words(terrain->relief, terrain->where);
    take_heights(terrain->missing);
    damage(terrain);
    if (cannot_be(terrain->fault))
        return;
    if (terrain->fault == FOLDER)
        must(mkdir(path, 0777) == 0, path);
    else
        write_file(path);
    if (terrain->fault == SHUT)
        must(chmod(path, 0) == 0, path);
}

/* Makes the folder's files, of which the sound ones are drawn. */
void make_folder(const char *folder)
{
    must(mkdir(folder, 0777) == 0, folder);
    for (uint32_t k = 0; k < terrain_count; k++)
        make_terrain(folder, &terrains[k]);
}
