/* Drawing paths: of every length and direction, mostly where a file has ground. */
#include "second.h"

/* The longest path in metres, and the shortest of at least 150 steps. */
#define LONGEST 100000
#define LONG_FROM 74501

/* How far the second end lies from the first. */
struct stretch {
    int64_t east;
    int64_t north;
};

/* A place from least to most, both possible: one of the two, or on a unit line, or any. */
static int64_t draw_between(int64_t least, int64_t most)
{
    int64_t any = least + below((uint32_t)(most - least + 1));
    if (chance(12))
        return chance(50) ? least : most;
    if (chance(30) && any / 500 * 500 >= least)
        return any / 500 * 500;
    return any;
}

/* Lays a path that goes `de` metres east and `dn` metres north (below 0: west and south) into a box of rectangles; false where it does
 * not fit. */
bool place_path(struct box box, uint32_t base, uint32_t zone, int64_t de, int64_t dn, struct path *path)
{
    struct janlishuk_point corner = point_at(base, zone, 100 * box.south + box.west, 0, 0);
    int64_t west = corner.easting + (de < 0 ? -de : 0);
    int64_t east = corner.easting + 7500 * (int64_t)box.columns - 1 - (de > 0 ? de : 0);
    int64_t south = corner.northing + (dn < 0 ? -dn : 0);
    int64_t north = corner.northing + 15500 * (int64_t)box.rows - 1 - (dn > 0 ? dn : 0);
    if (west > east || south > north)
        return false;
    path->first.zone = path->second.zone = zone;
    path->first.easting = (uint32_t)draw_between(west, east);
    path->first.northing = (uint32_t)draw_between(south, north);
    path->second.easting = (uint32_t)(path->first.easting + de);
    path->second.northing = (uint32_t)(path->first.northing + dn);
    return true;
}

/* A stretch of about this many metres, and no more, along an axis or in any direction. */
static struct stretch of_length(uint32_t metres)
{
    uint64_t square = (uint64_t)metres * metres;
    uint64_t east = chance(15) ? metres : chance(15) ? 0 : below(metres + 1);
    return (struct stretch){.east = (int64_t)east, .north = (int64_t)square_root(square - east * east)};
}

/* A stretch of exactly 100,000 m. */
static struct stretch longest(void)
{
    static const struct stretch stretches[5] = {{100000, 0}, {80000, 60000}, {96000, 28000}, {93600, 35200}, {84320, 53760}};
    return stretches[below(5)];
}

/* A stretch at a limit of N: 500 m times a number, along an axis or not, or one metre more or less. */
static struct stretch at_limit(void)
{
    uint32_t n = chance(30) ? between(1, 3) : between(1, 200);
    struct stretch stretch = {.east = 500 * n};
    if (chance(50))
        stretch = (struct stretch){.east = 300 * n, .north = 400 * n};
    stretch.east += (int64_t)below(3) - 1;
    return stretch;
}

/* A stretch as first drawn, to the north-east. A small home gets short ones in most cases. */
static struct stretch draw_length(const struct file *file)
{
    uint32_t kind = below(100);
    if (kind < 4)
        return (struct stretch){.east = below(3), .north = below(3)};
    if (kind < 14)
        return of_length(between(1, 1500));
    if (file->home.columns <= 3 && chance(80))
        return of_length(between(1, 7400 * file->home.columns));
    if (kind < 30)
        return of_length(between(1500, 40000));
    if (kind < 68)
        return of_length(between(LONG_FROM, LONGEST));
    if (kind < 76)
        return longest();
    if (kind < 80) {
        struct stretch stretch = longest();
        if (chance(50))
            return (struct stretch){.east = LONGEST, .north = 1};
        stretch.east += chance(50) ? 1 : between(1, 20000);
        return stretch;
    }
    if (kind < 90)
        return at_limit();
    return of_length(between(1, LONGEST));
}

/* The same stretch in any of eight directions. */
static struct stretch turned(struct stretch stretch)
{
    if (chance(50))
        stretch = (struct stretch){.east = stretch.north, .north = stretch.east};
    if (chance(50))
        stretch.east = -stretch.east;
    if (chance(50))
        stretch.north = -stretch.north;
    return stretch;
}

/* A path within the home of the file where one is found that fits, some of them moved to its edge, else anywhere on the ground. */
static struct path draw_home_path(const struct file *file, uint32_t base, uint32_t zone)
{
    struct path path = {0};
    for (int tries = 0; tries < 8; tries++) {
        struct stretch stretch = turned(draw_length(file));
        if (place_path(file->home, base, zone, stretch.east, stretch.north, &path))
            return chance(12) ? moved_to_edge(file->home, base, path) : path;
    }
    struct box all = {.columns = 100, .rows = (uint32_t)rules_rows(base)};
    struct stretch stretch = turned(draw_length(file));
    place_path(all, base, zone, stretch.east, stretch.north, &path);
    return path;
}

/* A path for a question: a planted one, one on a seam, one within the home, or one with an end or both of them anywhere. */
struct path draw_path(const struct file *file, uint32_t base, uint32_t zone, bool *planted)
{
    *planted = file->planted_count > 0 && chance(20);
    if (*planted)
        return file->planted[below(file->planted_count)];
    struct path path = chance(file->corner_count > 0 ? 60 : 8) ? draw_seam_path(file, base, zone) : draw_home_path(file, base, zone);
    if (chance(4))
        path.first = draw_point(file, base, zone);
    if (chance(5))
        path.second = draw_point(file, base, zone);
    if (chance(1))
        path.first.zone = other_zone(zone);
    if (chance(1))
        path.second.zone = other_zone(zone);
    return path;
}
