/* Sessions whose instructions are counted: lines that are bad by one byte, sites, and paths of some kilometres to 100. */
#include <string.h>

#include "sessions.h"

/* The file of the paths. It has 60 records and ground on which some paths are clear. */
#define MEASURED_FILE "NK09"

/* The shortest and the longest path, in metres. */
#define LEAST_PATH 3000
#define MOST_PATH 100000

/* A site of the paths. */
struct point {
    int64_t easting;
    int64_t northing;
};

/* Writes a line. */
static void write_line(const struct text *text)
{
    fwrite(text->bytes, 1, text->length, stdout);
    putchar('\n');
}

/* Adds a drawn legal line, with names of 2 to 12 bytes and numbers of 6 and 7 digits, or mast limits. */
static void draw_measured(struct text *text)
{
    static const char *const files[] = {"use NK17", "use NA01", "use NU60", "use NJ38"};
    uint32_t kind = below(4);
    if (kind == 0) {
        add_text(text, files[below(4)]);
        return;
    }
    add_text(text, kind == 1 ? "site " : kind == 2 ? "path " : "masts ");
    draw_name(text, between(2, MOST_NAME));
    if (kind != 1) {
        add_byte(text, ' ');
        draw_name(text, between(2, MOST_NAME));
    }
    for (int k = 0; k < 2 && kind != 2; k++) {
        add_byte(text, ' ');
        add_number(text, kind == 3 ? below(101) : k == 0 ? between(125000, 874999) : between(4433000, 4866999));
    }
}

/* Writes lines that are bad: a legal one in which a drawn byte is replaced, inserted or taken out, or which is cut short. */
static void write_bad(uint32_t lines)
{
    while (lines > 0) {
        struct text text = {0};
        draw_measured(&text);
        uint32_t at = below((uint32_t)text.length);
        uint32_t kind = below(4);
        if (kind == 0)
            text.bytes[at] = draw_byte();
        else if (kind == 1) {
            memmove(text.bytes + at + 1, text.bytes + at, text.length++ - at);
            text.bytes[at] = draw_byte();
        } else if (kind == 2)
            memmove(text.bytes + at, text.bytes + at + 1, text.length-- - at - 1);
        else
            text.length = at;
        if (walk_line(text.bytes, text.length).legal)
            continue;
        write_line(&text);
        lines--;
    }
}

/* Writes lines `site`: 32 with different names, then about as many whose names are taken as others, for which there is no room. */
static void write_sites(uint32_t lines)
{
    static struct text names[MOST_SITES];
    for (uint32_t k = 0; k < lines; k++) {
        struct text text = {0}, other = {0};
        struct text *name = k < MOST_SITES ? &names[k] : chance(50) ? &names[below(MOST_SITES)] : &other;
        if (k < MOST_SITES) {
            add_byte(name, (uint8_t)('A' + k % 26));
            add_byte(name, (uint8_t)('0' + k / 26));
        }
        if (name->length < 3)
            draw_name(name, between(2, MOST_NAME - 2));
        add_text(&text, "site ");
        for (size_t m = 0; m < name->length; m++)
            add_byte(&text, name->bytes[m]);
        add_byte(&text, ' ');
        add_number(&text, between(125000, 874999));
        add_byte(&text, ' ');
        add_number(&text, between(4433000, 4866999));
        write_line(&text);
    }
}

/* Adds the name of a path's end. */
static void add_site_name(struct text *text, uint32_t k)
{
    add_text(text, "MAST-");
    add_number(text, 1 + k);
}

/* Writes lines `path` between 32 sites that lie in the box of the file, behind a line `use` and those of the sites. */
static void write_paths(uint32_t lines)
{
    struct point points[MOST_SITES];
    struct area area = area_of(terrain_named((const uint8_t *)MEASURED_FILE));
    printf("use %s\n", MEASURED_FILE);
    for (uint32_t k = 0; k < MOST_SITES; k++) {
        points[k] = (struct point){.easting = area.easting + below(area.width), .northing = area.northing + below(area.height)};
        printf("site MAST-%u %u %u\n", 1 + (unsigned)k, (unsigned)points[k].easting, (unsigned)points[k].northing);
    }
    while (lines > 0) {
        struct text text = {0};
        uint32_t k = below(MOST_SITES), m = below(MOST_SITES);
        int64_t east = points[k].easting - points[m].easting, north = points[k].northing - points[m].northing;
        int64_t square = east * east + north * north;
        if (square < (int64_t)LEAST_PATH * LEAST_PATH || square > (int64_t)MOST_PATH * MOST_PATH)
            continue;
        add_text(&text, "path ");
        add_site_name(&text, k);
        add_byte(&text, ' ');
        add_site_name(&text, m);
        write_line(&text);
        lines--;
    }
}

/* Writes a session of a kind, in which so many lines are of that kind; false where there is no such kind. */
bool write_measured(const char *kind, uint32_t lines)
{
    if (strcmp(kind, "bad") == 0)
        write_bad(lines);
    else if (strcmp(kind, "site") == 0)
        write_sites(lines);
    else if (strcmp(kind, "path") == 0)
        write_paths(lines);
    else
        return false;
    return true;
}
