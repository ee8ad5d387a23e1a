/* Drawing the lines of a session: legal ones of every kind, most of them about ground that the file in use has, and others that are bad in every
 * way. */
#include <string.h>

#include "sessions.h"

/* Bytes of a very long line. */
#define VERY_LONG 1000000

/* Metres to the east and to the north of a path of exactly 100 km. */
#define LONGEST_EAST 60000
#define LONGEST_NORTH 80000

/* A site that a session was given, and the number of the site that it was drawn about, which is its own where there is none. */
struct site {
    char name[MOST_NAME + 1];
    uint32_t easting;
    uint32_t northing;
    uint32_t about;
};

/* A session in the making: the file whose ground it is about, the sites that it was given, its last line `path`, and whether that is to follow once
 * more. */
static const struct terrain *home;
static struct site sites[MOST_SITES];
static uint32_t site_count;
static struct text last_path;
static bool repeat_path;

/* A file that is sound, or one that is not. */
static const struct terrain *draw_file(bool sound)
{
    const struct terrain *terrain;
    do
        terrain = &terrains[below(terrain_count)];
    while ((terrain->fault == SOUND) != sound);
    return terrain;
}

/* A sound file that has ground. */
static const struct terrain *draw_ground(void)
{
    const struct terrain *terrain;
    do
        terrain = draw_file(true);
    while (terrain->where == NOWHERE);
    return terrain;
}

/* A sound file of the same base and box as the session's own. */
static const struct terrain *draw_neighbour(void)
{
    const struct terrain *terrain;
    do
        terrain = draw_ground();
    while (terrain->where != home->where || base_of(terrain->name) != base_of(home->name));
    return terrain;
}

/* Adds a line `use`: mostly for a file with ground under the sites, else for another that is there, or for any. */
static void draw_use(struct text *text)
{
    uint32_t kind = below(100);
    add_text(text, "use ");
    repeat_path = last_path.length > 0 && chance(70);
    if (kind < 55)
        add_text(text, draw_neighbour()->name);
    else if (kind < 93)
        add_text(text, draw_file(kind < 63)->name);
    else {
        add_byte(text, 'N');
        add_byte(text, (uint8_t)('A' + below(21)));
        uint32_t zone = between(1, 60);
        add_byte(text, (uint8_t)('0' + zone / 10));
        add_byte(text, (uint8_t)('0' + zone % 10));
    }
}

/* Adds a name that looks like something else, or that others begin with. */
static void draw_odd_name(struct text *text)
{
    static const char *const names[] = {"USE", "SITE", "PATH", "MASTS", "NK17", "BAD", "TAKEN", "N0", "E500000", "A", "A1", "A10", "A-1", "A-", "Z---",
                                        "MAST-1", "X-0-0", "AAAAAAAA", "AAAAAAAAA", "AAAAAAAAAAAA", "AAAAAAAAAAAB", "BAAAAAAAAAAA", "AAAAAAAB"};
    add_text(text, names[below(sizeof names / sizeof names[0])]);
}

/* Adds a name that a session may not have yet. */
static void draw_some_name(struct text *text)
{
    if (chance(30))
        draw_odd_name(text);
    else
        draw_name(text, chance(20) ? MOST_NAME : between(1, MOST_NAME));
}

/* Adds the name of a site if there is one, seldom another. */
static void draw_known_name(struct text *text, uint32_t percent_other)
{
    if (site_count == 0 || chance(percent_other))
        draw_some_name(text);
    else
        add_text(text, sites[below(site_count)].name);
}

/* Metres from 0 to the last below a bound: any, or on a unit line, or on a seam, which is every `seam` metres. */
static uint32_t draw_metres(uint32_t bound, uint32_t seam)
{
    uint32_t any = below(bound);
    return chance(15) ? any / seam * seam : chance(20) ? any / 500 * 500 : any;
}

/* A point in the box of the session's own file, sometimes in its south-western corner, from where it reaches 100 km to the north-east. */
static struct site draw_in_box(void)
{
    struct area area = area_of(home);
    if (chance(20)) {
        area.width -= LONGEST_EAST;
        area.height -= LONGEST_NORTH;
    }
    return (struct site){.easting = area.easting + draw_metres(area.width, 7500), .northing = area.northing + draw_metres(area.height, 15500)};
}

/* A point off the ground or on its bounds, or anywhere. */
static struct site draw_outside(void)
{
    static const uint32_t eastings[] = {0, 124999, 125000, 874999, 875000, 9999999};
    struct site site = draw_in_box();
    if (chance(50))
        site.easting = chance(70) ? eastings[below(6)] : below(10000000);
    else
        site.northing = chance(30) ? 0 : chance(30) ? area_of(home).northing - 1 : below(10000000);
    return site;
}

/* A point about an earlier site: the same, near it, or, for one in the corner, 100 km from it to the north-east, or a metre more. */
static struct site draw_about(struct site earlier)
{
    struct area area = area_of(home);
    uint32_t reach = chance(40) ? 400 : 6000;
    struct site site = earlier;
    bool far = site.easting - area.easting < area.width - LONGEST_EAST && site.northing - area.northing < area.height - LONGEST_NORTH;
    if (chance(15))
        return site;
    if (far && chance(80)) {
        site.easting += LONGEST_EAST + (chance(40) ? 1 : 0);
        site.northing += LONGEST_NORTH;
        return site;
    }
    site.easting += below(reach);
    site.northing += chance(50) ? 0 : below(reach);
    return site;
}

/* A point for a site: mostly in the box of the session's own file, often about an earlier one. */
static struct site draw_point(void)
{
    uint32_t kind = below(100);
    uint32_t about = kind < 45 && site_count > 0 ? below(site_count) : site_count;
    struct site site = about < site_count ? draw_about(sites[about]) : kind > 94 ? draw_outside() : draw_in_box();
    if (site.easting > 9999999 || site.northing > 9999999)
        site = draw_in_box();
    site.about = about;
    return site;
}

/* Whether a site has a name. */
static bool is_site(const char *name)
{
    for (uint32_t k = 0; k < site_count; k++)
        if (strcmp(sites[k].name, name) == 0)
            return true;
    return false;
}

/* Adds a line `site`, mostly with a new name, and remembers it. */
static void draw_site(struct text *text)
{
    struct text name = {0};
    struct site site = draw_point();
    if (chance(80))
        draw_some_name(&name);
    else
        draw_known_name(&name, 0);
    memcpy(site.name, name.bytes, name.length);
    site.name[name.length] = '\0';
    add_text(text, "site ");
    add_text(text, site.name);
    add_byte(text, ' ');
    add_number(text, site.easting);
    add_byte(text, ' ');
    add_number(text, site.northing);
    if (site_count < MOST_SITES && !is_site(site.name))
        sites[site_count++] = site;
}

/* Adds two names: of any two sites, often of two of which one was drawn about the other, seldom of one site or of none. */
static void draw_names(struct text *text)
{
    const struct site *site = &sites[below(MOST_SITES)];
    uint32_t number = (uint32_t)(site - sites);
    if (number < site_count && (site->about != number ? chance(60) : chance(3))) {
        bool turned = chance(50);
        add_text(text, turned ? site->name : sites[site->about].name);
        add_byte(text, ' ');
        add_text(text, turned ? sites[site->about].name : site->name);
        return;
    }
    draw_known_name(text, 4);
    add_byte(text, ' ');
    draw_known_name(text, 4);
}

/* Adds a line `path`, the last once more where that is to follow. */
static void draw_path(struct text *text)
{
    if (!repeat_path) {
        last_path.length = 0;
        add_text(&last_path, "path ");
        draw_names(&last_path);
    }
    repeat_path = false;
    memcpy(text->bytes, last_path.bytes, last_path.length);
    text->length = last_path.length;
}

/* A mast limit: often 100, or one about it, or a low one. */
static uint32_t draw_limit(void)
{
    uint32_t kind = below(100);
    return kind < 45 ? 100 : kind < 50 ? 101 : kind < 52 ? below(10000000) : kind < 60 ? 0 : below(101);
}

/* Adds a legal line. */
static void draw_legal(struct text *text)
{
    uint32_t sites_wanted = site_count < 20 ? 40 : site_count < MOST_SITES ? 25 : 12;
    uint32_t kind = below(100);
    if (repeat_path)
        draw_path(text);
    else if (kind < sites_wanted)
        draw_site(text);
    else if (kind < sites_wanted + 10)
        draw_use(text);
    else if (chance(50))
        draw_path(text);
    else {
        add_text(text, "masts ");
        draw_names(text);
        add_byte(text, ' ');
        add_number(text, draw_limit());
        add_byte(text, ' ');
        add_number(text, draw_limit());
    }
}

/* Adds a legal line that is to be spoilt, so that no site is remembered. */
static void draw_victim(struct text *text)
{
    uint32_t held = site_count;
    draw_legal(text);
    site_count = held;
}

/* Spoils a line by one byte: inserts, takes out or replaces it, or cuts the line short there. */
static void spoil(struct text *text)
{
    uint32_t at = below((uint32_t)text->length + 1);
    uint32_t kind = below(4);
    size_t behind = text->length - at;
    if (kind == 0) {
        memmove(text->bytes + at + 1, text->bytes + at, behind);
        text->bytes[at] = draw_byte();
        text->length++;
    } else if (kind == 1 && behind > 0) {
        memmove(text->bytes + at, text->bytes + at + 1, behind - 1);
        text->length--;
    } else if (kind == 2 && behind > 0)
        text->bytes[at] = draw_byte();
    else
        text->length = at;
}

/* Adds what leads to a place of the grammar. */
static void draw_way(struct text *text)
{
    static struct way ways[MOST_WAYS];
    struct way way = ways[below((uint32_t)draw_ways(ways))];
    for (size_t k = 0; k < way.length; k++)
        add_byte(text, way.bytes[k]);
}

/* Adds the longest line, with names and numbers of as many bytes as they may have. */
static void draw_longest(struct text *text)
{
    add_text(text, "masts ");
    for (int k = 0; k < 2; k++) {
        draw_name(text, MOST_NAME);
        add_byte(text, ' ');
    }
    add_number(text, between(1000000, 9999999));
    add_byte(text, ' ');
    add_number(text, between(1000000, 9999999));
}

/* Adds a line with some bytes, or none, behind the longest line or what leads to a place of the grammar. */
static void draw_at_place(struct text *text)
{
    if (chance(10))
        draw_longest(text);
    else
        draw_way(text);
    for (uint32_t k = below(4); k > 0; k--)
        add_byte(text, draw_byte());
}

/* Adds a line as it comes out of a spreadsheet or from elsewhere: empty, with a carriage return, a space or a tab at its end, with two commands, in
 * small or capital letters, or random. */
static void draw_pasted(struct text *text)
{
    static const char *const lines[] = {
        "", "", "USE NK17", "Site A1 1 1", "site a1 500000 4433000", "site A1;B1 1 1", "site A1, 500000, 4433000", "use nk17", "use NK17 NK18",
        " path A1 B1", "path  A1 B1", "site A_1 1 1", "site 1A 1 1", "site -A 1 1", "site A1 +1 1", "site A1 -1 1", "site A1 1.0 1", "site A1 1e5 1",
        "site A1 00 1", "site A1 007 1", "masts A1 B1 1 01", "site use 1 1", "site A1 B1 1", "path 1 2", "masts A1 B1 100 100 100", "use 40 17",
    };
    static const char *const ends[] = {"\r", " ", "\t", " \r", ";", "\xC3\xA9", " site B1 1 1"};
    uint32_t kind = below(100);
    if (kind < 40)
        add_text(text, lines[below(sizeof lines / sizeof lines[0])]);
    else if (kind < 80) {
        draw_victim(text);
        add_text(text, ends[below(sizeof ends / sizeof ends[0])]);
    } else
        for (uint32_t k = below(60); k > 0; k--)
            add_byte(text, draw_byte());
}

/* Adds a line of any kind. */
static void draw_line(struct text *text)
{
    uint32_t kind = below(100);
    if (kind < 65)
        draw_legal(text);
    else if (kind < 88) {
        draw_victim(text);
        spoil(text);
    } else if (kind < 93)
        draw_at_place(text);
    else
        draw_pasted(text);
}

/* Writes a very long line: a legal one, or what begins one, and then a million bytes of one value or any. */
static void write_long_line(bool legal)
{
    static const char fillers[] = {' ', 'A', '0', '9', '-', 'x', '\0', '\r'};
    struct text text = {0};
    bool any = chance(25);
    uint8_t filler = (uint8_t)fillers[below(sizeof fillers)];
    draw_victim(&text);
    if (!legal)
        text.length = below((uint32_t)text.length + 1);
    fwrite(text.bytes, 1, text.length, stdout);
    for (uint32_t k = VERY_LONG + below(VERY_LONG / 10); k > 0; k--)
        putchar(any ? draw_byte() : filler);
}

/* Writes a session of so many lines. Every fourth has a very long one, and the last line of about every second has no line feed. */
void write_session(uint32_t number, uint32_t lines)
{
    uint32_t long_line = number % 4 == 3 ? below(lines) : lines;
    home = draw_ground();
    site_count = 0;
    last_path.length = 0;
    repeat_path = false;
    for (uint32_t k = 0; k < lines; k++) {
        struct text text = {0};
        if (k == long_line)
            write_long_line(number % 8 == 3);
        else
            draw_line(&text);
        fwrite(text.bytes, 1, text.length, stdout);
        if (k + 1 < lines || chance(50))
            putchar('\n');
    }
}
