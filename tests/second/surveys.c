/* Drawing surveys for an upload: lists that fit, lists that do not, and points that are read and that are refused. */
#include "second.h"

/* Far more entries than a survey may have: from 2^16 or 2^32 on, so that the low bits say a number below `bound`. */
static size_t far_above(uint32_t bound)
{
    size_t far = (size_t)1 << (chance(50) ? 16 : 32);
    return far + below(bound);
}

/* How many points a survey has: mostly few, often one of the numbers at a bound, seldom more than may be. */
static size_t draw_points_count(void)
{
    uint32_t kind = below(100);
    if (kind < 8)
        return 0;
    if (kind < 16)
        return 1;
    if (kind < 19)
        return 255;
    if (kind < 24)
        return 256;
    if (kind < 29)
        return 257;
    if (kind < 32)
        return between(13, 254);
    if (kind < 35)
        return between(258, 600);
    return kind < 38 ? far_above(13) : between(2, 12);
}

/* The room of a list for more than its points: for some more, or in few cases for far more. */
static size_t draw_room(size_t points)
{
    uint32_t kind = below(100);
    if (kind < 90)
        return points + between(1, 9);
    return kind < 95 ? points + between(10, 700) : far_above(2);
}

/* The lists of a survey that fit, if there are no more points than may be: in many surveys no list has room for more than the points, in
 * others each has it, or some have. */
static void draw_fitting(struct survey *survey)
{
    size_t points = draw_points_count();
    uint32_t percent = chance(40) ? 0 : chance(50) ? 100 : 50;
    survey->count[LIST_EASTINGS] = survey->count[LIST_NORTHINGS] = points;
    for (enum list list = LIST_HEIGHTS; list < LISTS; list++)
        survey->count[list] = chance(percent) ? draw_room(points) : points;
}

/* Another number of entries for one of the two lists of points: one more or less, none, or the same with a bit above it. */
static size_t other_count(size_t count)
{
    static const uint32_t bits[3] = {8, 16, 32};
    uint32_t kind = below(100);
    if (count > 0 && kind < 40)
        return count - 1;
    if (count > 0 && kind < 50)
        return 0;
    return kind < 90 ? count + 1 : count + ((size_t)1 << bits[below(3)]);
}

/* Fewer entries for a list: one less, none, or any number that is less; count is above 0. */
static size_t fewer(size_t count)
{
    uint32_t kind = below(100);
    if (kind < 60)
        return count - 1;
    return kind < 80 ? 0 : below(count < 600 ? (uint32_t)count : 600);
}

/* Makes lists that do not fit: one of the two lists of points has another number of entries, or one of the other lists is shorter. */
static void spoil(struct survey *survey)
{
    size_t points = survey->count[LIST_NORTHINGS];
    enum list list = chance(40) || points == 0 ? below(LIST_HEIGHTS) : between(LIST_HEIGHTS, LISTS - 1);
    survey->count[list] = list < LIST_HEIGHTS ? other_count(survey->count[list]) : fewer(points);
}

/* Chooses how each list is lent: mostly up to the page beyond. A list with more entries than a page has room for is lent with as many as
 * there is room for if it is to be written to, since only the entries of points are, and else without any, since the call is refused. */
static void draw_lendings(struct survey *survey)
{
    for (enum list list = 0; list < LISTS; list++) {
        size_t count = survey->count[list];
        if (count == 0)
            survey->lending[list] = chance(50) ? AS_NULL : BEYOND;
        else if (count > LIST_BYTES / entry_size(list))
            survey->lending[list] = list < LIST_HEIGHTS ? BEYOND : FROM_START;
        else
            survey->lending[list] = chance(75) ? TO_END : FROM_START;
    }
}

/* A point that a file without missing heights reads: on covered ground, if it covers any. */
static struct janlishuk_point covered_point(const struct file *file, uint32_t base)
{
    uint32_t rectangle = file->covered_count > 0 ? file->covered[below(file->covered_count)] : 1;
    uint32_t east = below(7500);
    uint32_t north = below(15500);
    return point_at(base, file->zone, rectangle, east, north);
}

/* A point that no file reads: in rectangle 0, or to the east of the ground. */
static struct janlishuk_point lost_point(const struct file *file, uint32_t base)
{
    uint32_t beyond = chance(50) ? 750000 : 0;
    uint32_t east = below(7500);
    uint32_t north = below(15500);
    return point_at(base, file->zone, 0, beyond + east, north);
}

/* Draws the points of a survey: of all kinds, or all on covered ground, or all such that no file reads them. In some surveys the first
 * point is one of these, or the last. */
static void draw_points(const struct file *file, uint32_t base, const struct survey *survey)
{
    size_t eastings = kept_entries(survey, LIST_EASTINGS);
    size_t northings = kept_entries(survey, LIST_NORTHINGS);
    size_t points = eastings > northings ? eastings : northings;
    uint32_t kind = below(100);
    bool first_lost = chance(15);
    bool last_lost = chance(15);
    for (size_t k = 0; k < points; k++)
        if (kind < 10 || (first_lost && k == 0) || (last_lost && k == points - 1))
            set_point(survey, k, lost_point(file, base));
        else
            set_point(survey, k, kind < 30 ? covered_point(file, base) : draw_point(file, base, file->zone));
}

/* The lists of an upload, and what is in them: points for a file of this base, and drawn bytes where heights, codes and refusals go. */
struct survey draw_survey(const struct file *file, uint32_t base)
{
    struct survey survey;
    draw_fitting(&survey);
    if (chance(30))
        spoil(&survey);
    if (chance(8))
        spoil(&survey);
    draw_lendings(&survey);
    draw_pages();
    draw_points(file, base, &survey);
    return survey;
}
