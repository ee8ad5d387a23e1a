/* Drawing questions: every call, with numbers on, beside and far beyond every bound. */
#include "second.h"

/* A file as it is asked of with some base and zone. */
struct rules_file opened(const struct file *file, uint32_t base, uint32_t zone)
{
    return (struct rules_file){.bytes = file->bytes, .length = file->length, .base = base, .zone = zone};
}

/* The point this many metres from the south-western corner of a rectangle. */
struct janlishuk_point point_at(uint32_t base, uint32_t zone, uint32_t rectangle, uint32_t east, uint32_t north)
{
    struct janlishuk_point point;
    point.zone = zone;
    point.easting = 125000 + 7500 * (rectangle % 100) + east;
    point.northing = 500 * (uint32_t)rules_boundary(base) + 15500 * (rectangle / 100) + north;
    return point;
}

/* Metres beyond a unit line, 0 to 499: often none, or such that corners weigh alike. */
uint32_t draw_part(void)
{
    static const uint32_t parts[6] = {0, 0, 1, 125, 250, 499};
    return chance(60) ? parts[below(6)] : below(500);
}

/* A point of a rectangle, often in its last column or row. */
struct janlishuk_point in_rectangle(uint32_t base, uint32_t zone, uint32_t rectangle)
{
    uint32_t wx = chance(15) ? 14 : below(15);
    uint32_t wy = chance(15) ? 30 : below(31);
    return point_at(base, zone, rectangle, 500 * wx + draw_part(), 500 * wy + draw_part());
}

/* A point of which a word without height is one of the four corners, in the rectangle of that word or, for a word of the last column or
 * row, where the next rectangle begins. */
static struct janlishuk_point near_missing(const struct file *file, uint32_t base, uint32_t zone)
{
    struct missing missing = file->missing[below(file->missing_count)];
    uint32_t column = (missing.word - 1) % 16;
    uint32_t row = (missing.word - 1) / 16;
    uint32_t wx = column == 15 ? 14 : column == 0 ? 0 : column - below(2);
    uint32_t wy = row == 31 ? 30 : row == 0 ? 0 : row - below(2);
    uint32_t east = column == 15 && chance(50) ? 7500 : 500 * wx + draw_part();
    uint32_t north = row == 31 && chance(50) ? 15500 : 500 * wy + draw_part();
    return point_at(base, zone, missing.rectangle, east, north);
}

/* A point that may be read though entries elsewhere are broken: in a remembered corner, or on covered ground, if there is any. */
static struct janlishuk_point draw_spared_point(const struct file *file, uint32_t base, uint32_t zone)
{
    if (file->corner_count > 0 && chance(70))
        return point_at(base, zone, file->corners[below(file->corner_count)], 0, 0);
    return in_rectangle(base, zone, file->covered_count > 0 ? file->covered[below(file->covered_count)] : 1);
}

/* A point on or beside a bound of the ground. */
static struct janlishuk_point at_bound(uint32_t base, uint32_t zone)
{
    static const uint32_t eastings[4] = {124999, 125000, 874999, 875000};
    uint32_t south = 500 * (uint32_t)rules_boundary(base);
    uint32_t north = 500 * (uint32_t)rules_boundary(base + 4);
    const uint32_t northings[4] = {south - 1, south, north - 1, north};
    struct janlishuk_point point = {.zone = zone};
    point.easting = chance(60) ? eastings[below(4)] : between(125000, 874999);
    point.northing = chance(60) ? northings[below(4)] : between(south, north - 1);
    return point;
}

/* A zone for a point that is not of the given one: the next, the same with a bit above it, or anything. */
uint32_t other_zone(uint32_t zone)
{
    uint32_t kind = below(100);
    return kind < 40 ? zone + 1 : kind < 60 ? zone + (1u << between(8, 31)) : far_number();
}

/* A point for a question: mostly on covered ground or on a seam, else where a height is missing, at a bound, in rectangle 0, anywhere, or
 * of another zone; often at a broken position, where the file has such. */
struct janlishuk_point draw_point(const struct file *file, uint32_t base, uint32_t zone)
{
    uint32_t kind = below(100);
    uint32_t all = 100 * (uint32_t)rules_rows(base);
    uint32_t seams = file->corner_count > 0 ? 45 : 15;
    struct janlishuk_point point = in_rectangle(base, zone, below(all));
    if (kind < 20 && file->missing_count > 0)
        point = near_missing(file, base, zone);
    else if (file->broken_count > 0 && chance(45))
        point = draw_broken_point(file, base, zone);
    else if (spots_may_differ(file) && chance(file->broken_count > 0 ? 60 : 85))
        point = draw_spared_point(file, base, zone);
    else if (kind < 20 + seams)
        point = draw_seam_point(file, base, zone);
    else if (kind < 70 && file->covered_count > 0)
        point = in_rectangle(base, zone, file->covered[below(file->covered_count)]);
    else if (kind < 85)
        point = at_bound(base, zone);
    else if (kind < 88)
        point = in_rectangle(base, zone, 0);
    else if (kind < 92)
        point.easting = far_number();
    else if (kind < 96)
        point.northing = far_number();
    if (chance(3))
        point.zone = other_zone(zone);
    return point;
}

/* A base that need not be one of those named: one of them, one that is not, the file's own with a bit above it, or anything. */
static uint32_t draw_base(uint32_t own)
{
    uint32_t kind = below(100);
    if (kind < 30)
        return 4 * below(21);
    if (kind < 85)
        return below(89);
    return kind < 92 ? own + (1u << between(8, 31)) : far_number();
}

/* A zone that need not be one of those named: at a bound or beside it, one below 64, the file's own with a bit above it, or anything. */
static uint32_t draw_zone(uint32_t own)
{
    static const uint32_t zones[4] = {0, 1, 60, 61};
    uint32_t kind = below(100);
    if (kind < 45)
        return zones[below(4)];
    if (kind < 85)
        return below(64);
    return kind < 92 ? own + (1u << between(8, 31)) : far_number();
}

/* A northing for finding its base: at a boundary, about where there is no base any more, or anywhere. */
static uint32_t draw_northing(void)
{
    uint32_t kind = below(100);
    if (kind < 40)
        return 500 * (uint32_t)rules_boundary(4 * below(22)) + below(3) - 1;
    if (kind < 50)
        return 9331000 + below(3) - 1;
    if (kind < 80)
        return below(9331000);
    return kind < 90 ? between(9330000, 9340000) : far_number();
}

/* A mast or a mast limit: low, any that is allowed, at the limit of what is allowed, or in few cases anything. */
static uint32_t draw_mast(void)
{
    uint32_t kind = below(100);
    if (kind < 25)
        return below(6);
    if (kind < 70)
        return below(101);
    if (kind < 96)
        return chance(80) ? 100 : between(98, 101);
    return far_number();
}

/* The mast, or one metre more or less. */
static uint32_t beside(uint32_t mast)
{
    return chance(60) ? mast : chance(50) ? mast + 1 : mast > 0 ? mast - 1 : 0;
}

/* Masts for a verdict: those of a planted path or nearly, those of the plan or nearly, or any. */
static void draw_masts(const struct file *file, struct question *q, struct path path, bool planted)
{
    q->a = draw_mast();
    q->b = draw_mast();
    if (planted && chance(80)) {
        q->a = chance(60) ? path.a : beside(path.a);
        q->b = chance(60) ? path.b : beside(path.b);
    } else if (chance(25)) {
        struct janlishuk_plan_answer plan = rules_plan(opened(file, q->base, q->zone), q->first, q->second, 100, 100);
        q->a = plan.refusal == 0 ? beside(plan.first) : 100;
        q->b = plan.refusal == 0 ? beside(plan.second) : 100;
    }
}

/* Mast limits for a plan: mostly the highest, else those of a planted path or nearly, or any. */
static void draw_limits(struct question *q, struct path path, bool planted)
{
    q->a = q->b = 100;
    if (planted && chance(40)) {
        q->a = beside(path.a);
        q->b = beside(path.b);
    } else if (chance(50)) {
        q->a = draw_mast();
        q->b = draw_mast();
    }
}

/* The sample of an engine row: the first, the last, the one after it, one between, or anything. */
static uint32_t draw_sample(const struct question *q, uint32_t base)
{
    uint32_t kind = below(100);
    uint32_t n = 200;
    if (rules_on_ground(base, q->first) && rules_on_ground(base, q->second))
        n = (uint32_t)rules_steps(rules_square(q->first, q->second));
    if (kind < 15)
        return 0;
    if (kind < 30)
        return n;
    if (kind < 35)
        return n + 1;
    return kind < 95 ? below(n + 1) : far_number();
}

/* Which call a question is of; more of those that are given a path, and of a damaged file more spots, most where the index is damaged. */
static enum call draw_call(const struct file *file)
{
    static const uint32_t shares[CALLS] = {5, 2, 3, 11, 11, 7, 8, 12, 16, 13, 12};
    static const uint32_t more_spots[4] = {[1] = 20, [3] = 65};
    uint32_t kind = below(100);
    if (chance(more_spots[damage_refusal(file->damage)]))
        return SPOT;
    enum call call = CHECK;
    while (kind >= shares[call])
        kind -= shares[call++];
    return call;
}

/* A question of a file, mostly opened with what it was made for. */
struct question draw_question(const struct file *file)
{
    struct question q = {.call = draw_call(file), .base = file->base, .zone = file->zone};
    bool other = q.call == NAME || chance(4);
    if (other && chance(70))
        q.base = draw_base(file->base);
    if (other && chance(70))
        q.zone = draw_zone(file->zone);
    uint32_t base = q.base <= 80 && q.base % 4 == 0 ? q.base : file->base;
    bool planted = false;
    struct path path = {0};
    if (q.call == BASE)
        q.first.northing = draw_northing();
    if (q.call == READ || q.call == SPOT || q.call == ENGINE_POINT)
        q.first = draw_point(file, base, q.zone);
    if (q.call == UPLOAD)
        q.survey = draw_survey(file, base);
    if (q.call < PROFILE)
        return q;
    path = draw_path(file, base, q.zone, &planted);
    q.first = path.first;
    q.second = path.second;
    if (q.call == VERDICT)
        draw_masts(file, &q, path, planted);
    if (q.call == PLAN)
        draw_limits(&q, path, planted);
    if (q.call == ENGINE_ROW)
        q.a = draw_sample(&q, base);
    return q;
}
