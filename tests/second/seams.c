/* Drawing points and paths on seams, where rectangles meet, and beside them. */
#include "second.h"

const uint32_t steps_back[RULES_NONE] = {0, 1, 100, 101};

/* The rectangle that a point on a seam lies in: mostly one at a remembered corner, else one to the east, the north or the north-east of
 * rectangle 0, of a covered one or of the home. */
static uint32_t draw_own(const struct file *file)
{
    uint32_t kind = below(100);
    uint32_t step = steps_back[between(RULES_WEST, RULES_SOUTH_WEST)];
    struct box home = file->home;
    if (kind < 14)
        return step;
    if (kind < 88 && file->corner_count > 0)
        return file->corners[below(file->corner_count)];
    if (kind < 50 && file->covered_count > 0)
        return file->covered[below(file->covered_count)] + step;
    uint32_t column = chance(50) ? home.columns : below(home.columns + 1);
    uint32_t row = column < home.columns ? home.rows : below(home.rows + 1);
    return 100 * (home.south + row) + home.west + column;
}

/* Metres along an edge of this many units, often in the first or the last one. */
static uint32_t draw_along(uint32_t units)
{
    uint32_t unit = chance(25) ? 0 : chance(25) ? units - 1 : below(units);
    return 500 * unit + draw_part();
}

/* A point on the western or the southern edge of a rectangle or in its corner, or in some cases a little beside it to the east or north, or
 * 1 m to the west or south. */
static struct janlishuk_point on_seam(uint32_t base, uint32_t zone, uint32_t own)
{
    uint32_t kind = below(100);
    uint32_t east = kind < 27 ? draw_along(15) : 0;
    uint32_t north = kind >= 27 && kind < 54 ? draw_along(31) : 0;
    struct janlishuk_point point = point_at(base, zone, own, east, north);
    uint32_t aside = chance(85) ? 0 : chance(50) ? 1 : draw_part();
    bool back = aside == 1 && chance(30);
    uint32_t *moved = chance(50) ? &point.easting : &point.northing;
    *moved = back ? *moved - aside : *moved + aside;
    return point;
}

/* A point on a seam, or a little beside it, where the seams of the file's covered ground are. */
struct janlishuk_point draw_seam_point(const struct file *file, uint32_t base, uint32_t zone)
{
    return on_seam(base, zone, draw_own(file));
}

/* A point for which a broken position is looked at, or nearly: in its rectangle or in the one to the east, the north or the north-east,
 * mostly on a seam of that or a little beside it; in some cases in the rectangle before, or of another zone. The file has a broken
 * position. */
struct janlishuk_point draw_broken_point(const struct file *file, uint32_t base, uint32_t zone)
{
    uint32_t broken = file->broken[below(file->broken_count)];
    uint32_t own = chance(8) ? broken - 1 : broken + steps_back[below(RULES_NONE)];
    struct janlishuk_point point = chance(80) ? on_seam(base, zone, own) : in_rectangle(base, zone, own);
    uint32_t *moved = chance(50) ? &point.easting : &point.northing;
    *moved += chance(25) ? between(1, 499) : 0;
    if (chance(6))
        point.zone = other_zone(zone);
    return point;
}

/* The other end of a path from a point on a seam: anywhere in the rectangle that the point is read from, or on its eastern or its northern
 * edge. */
static struct janlishuk_point within_seat(uint32_t base, uint32_t zone, struct rules_seat seat)
{
    uint32_t kind = below(100);
    uint32_t east = kind < 25 ? 7500 : below(7501);
    uint32_t north = kind >= 25 && kind < 50 ? 15500 : below(15501);
    return point_at(base, zone, (uint32_t)seat.rectangle, east, north);
}

/* A path through a point, which is in the middle of it: to the north-west and the south-east of it, or in some cases to the south-west
 * and the north-east, and not beyond the rectangles that meet there. */
static struct path through(struct janlishuk_point middle)
{
    struct path path = {.first = middle, .second = middle};
    uint32_t east = below(7500);
    uint32_t north = below(15500);
    bool falls = chance(70);
    path.first.easting -= east;
    path.second.easting += east;
    path.first.northing += falls ? north : -north;
    path.second.northing -= falls ? north : -north;
    return path;
}

/* A path of which a point on a seam is the middle or an end, mostly one that is read from a rectangle beside its own if such is found; the
 * other end is then in that rectangle. It begins at either end. */
struct path draw_seam_path(const struct file *file, uint32_t base, uint32_t zone)
{
    struct rules_file asked = opened(file, base, zone);
    struct janlishuk_point point;
    enum rules_from taken = RULES_NONE;
    for (int tries = 0; tries < 6 && (taken == RULES_NONE || taken == RULES_OWN); tries++) {
        point = draw_seam_point(file, base, zone);
        taken = rules_on_ground(base, point) ? rules_taken(asked, point) : RULES_NONE;
    }
    struct path path = through(point);
    if (taken != RULES_NONE && chance(75))
        path = (struct path){.first = point, .second = within_seat(base, zone, rules_seat(rules_place(base, point), taken))};
    if (chance(50))
        path = (struct path){.first = path.second, .second = path.first};
    return path;
}

/* A path in the home moved to the east or the north, or both, until its foremost end is on the edge of the home, where the next rectangle
 * begins; not off the ground. */
struct path moved_to_edge(struct box home, uint32_t base, struct path path)
{
    struct janlishuk_point beyond = point_at(base, path.first.zone, 100 * home.south + home.west, 7500 * home.columns, 15500 * home.rows);
    uint32_t foremost_east = path.first.easting > path.second.easting ? path.first.easting : path.second.easting;
    uint32_t foremost_north = path.first.northing > path.second.northing ? path.first.northing : path.second.northing;
    uint32_t kind = below(3);
    uint32_t east = kind < 2 && home.west + home.columns < 100 ? beyond.easting - foremost_east : 0;
    uint32_t north = kind > 0 && home.south + home.rows < rules_rows(base) ? beyond.northing - foremost_north : 0;
    path.first.easting += east;
    path.second.easting += east;
    path.first.northing += north;
    path.second.northing += north;
    return path;
}
