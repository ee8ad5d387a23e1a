/* The rules of document 01, and of requests a), b) and c) of document 02, sentence by sentence. All arithmetic is in 64 bits, in which
 * nothing here can overflow: what a caller passes is multiplied only after it was found on the ground or within its limit. */
#include "rules.h"

/* The southern boundary yB(b) in 500 m units, by the formula: 31 x (7b + (1000 + (246 + b) x b) / 2000), division truncated. */
uint64_t rules_boundary(uint64_t base)
{
    return 31 * (7 * base + (1000 + (246 + base) * base) / 2000);
}

/* Rows of rectangles: (yB(b+4) - yB(b)) / 31. */
uint64_t rules_rows(uint64_t base)
{
    return (rules_boundary(base + 4) - rules_boundary(base)) / 31;
}

/* Whether the base is 0, 4, .. 80 and the zone 1 to 60. */
static bool opened_rightly(uint64_t base, uint64_t zone)
{
    bool base_named = base <= 80 && base % 4 == 0;
    bool zone_named = zone >= 1 && zone <= 60;
    return base_named && zone_named;
}

/* The number in position n of the index, positions numbered from 1, high byte first. */
uint64_t rules_position(const uint8_t *bytes, uint64_t n)
{
    return 256 * (uint64_t)bytes[2 * (n - 1)] + bytes[2 * (n - 1) + 1];
}

/* Whether the length is 1024 times a number from 6 to 4096. */
static bool length_holds(uint64_t length)
{
    return length % 1024 == 0 && length / 1024 >= 6 && length / 1024 <= 4096;
}

/* Whether M, in position 3072, is 6 to the record count. */
bool rules_highest_holds(struct rules_file file)
{
    uint64_t highest = rules_position(file.bytes, 3072);
    return highest >= 6 && highest <= file.length / 1024;
}

/* Whether an entry is 0 or 7 to M. */
bool rules_entry_holds(struct rules_file file, uint64_t entry)
{
    return entry == 0 || (entry >= 7 && entry <= rules_position(file.bytes, 3072));
}

/* Whether positions 1 to 100 x rows - 1 each hold 0 or 7 to M. */
static bool entries_hold(struct rules_file file)
{
    for (uint64_t n = 1; n <= 100 * rules_rows(file.base) - 1; n++)
        if (!rules_entry_holds(file, rules_position(file.bytes, n)))
            return false;
    return true;
}

/* Whether no nonzero number stands in two of the positions 1 to 100 x rows - 1; asked where each is at most M, and M at most 4096. */
static bool entries_differ(struct rules_file file)
{
    bool met[4097] = {false};
    for (uint64_t n = 1; n <= 100 * rules_rows(file.base) - 1; n++) {
        uint64_t entry = rules_position(file.bytes, n);
        if (entry != 0 && met[entry])
            return false;
        met[entry] = true;
    }
    return true;
}

/* Whether positions from 100 x rows to 3071 are 0. */
static bool rest_is_zero(struct rules_file file)
{
    for (uint64_t n = 100 * rules_rows(file.base); n <= 3071; n++)
        if (rules_position(file.bytes, n) != 0)
            return false;
    return true;
}

/* The first of the refusals 1, 2, and 3 for M outside its range that holds of a file, else 0. No entry is looked at. */
static uint32_t opening_refusal(struct rules_file file)
{
    if (!length_holds(file.length))
        return 1;
    if (!opened_rightly(file.base, file.zone))
        return 2;
    return rules_highest_holds(file) ? 0 : 3;
}

/* The first of the refusals 1, 2, 3 that holds of a file, else 0. */
static uint32_t file_refusal(struct rules_file file)
{
    uint32_t refusal = opening_refusal(file);
    if (refusal == 0 && !(entries_hold(file) && entries_differ(file) && rest_is_zero(file)))
        refusal = 3;
    return refusal;
}

/* A check that passes answers M; else refusal 1, 2 or 3. */
struct janlishuk_check_answer rules_check(struct rules_file file)
{
    struct janlishuk_check_answer answer = {0};
    answer.refusal = file_refusal(file);
    if (answer.refusal == 0)
        answer.highest = (uint32_t)rules_position(file.bytes, 3072);
    return answer;
}

/* The file name, four bytes: N, the letter (A for 0 to U for 80), the zone as two digits. It gives only refusal 2. */
struct janlishuk_name_answer rules_name(uint64_t base, uint64_t zone)
{
    struct janlishuk_name_answer answer = {0};
    if (!opened_rightly(base, zone)) {
        answer.refusal = 2;
        return answer;
    }
    answer.name[0] = 'N';
    answer.name[1] = (uint8_t)("ABCDEFGHIJKLMNOPQRSTU"[base / 4]);
    answer.name[2] = (uint8_t)('0' + zone / 10);
    answer.name[3] = (uint8_t)('0' + zone % 10);
    return answer;
}

/* The base is the b with yB(b) <= y < yB(b+4), where y is the northing divided by 500, truncated; refusal 4 where there is none. */
struct janlishuk_base_answer rules_base(uint64_t northing)
{
    struct janlishuk_base_answer answer = {0};
    uint64_t y = northing / 500;
    for (uint64_t base = 0; base <= 80; base += 4)
        if (rules_boundary(base) <= y && y < rules_boundary(base + 4)) {
            answer.base = (uint32_t)base;
            return answer;
        }
    answer.refusal = 4;
    return answer;
}

/* Whether the ground holds the point: eastings from 125,000 to 874,999 m and northings from 500 yB(b) to 500 yB(b+4) - 1. */
bool rules_on_ground(uint64_t base, struct janlishuk_point point)
{
    bool easting_holds = point.easting >= 125000 && point.easting <= 874999;
    bool northing_holds = point.northing >= 500 * rules_boundary(base) && point.northing <= 500 * rules_boundary(base + 4) - 1;
    return easting_holds && northing_holds;
}

/* Where a point on the ground lies, with x = E / 500 and y = N / 500 truncated: Iy = (y - yB) / 31, Ix = (x - 250) / 15,
 * wx = x - 250 - 15 Ix, wy = y - yB - 31 Iy, fx = E mod 500, fy = N mod 500. */
struct rules_place rules_place(uint64_t base, struct janlishuk_point point)
{
    uint64_t x = point.easting / 500;
    uint64_t y = point.northing / 500;
    struct rules_place place;
    place.iy = (y - rules_boundary(base)) / 31;
    place.ix = (x - 250) / 15;
    place.wx = x - 250 - 15 * place.ix;
    place.wy = y - rules_boundary(base) - 31 * place.iy;
    place.fx = point.easting % 500;
    place.fy = point.northing % 500;
    return place;
}

/* The rectangle n = 100 Iy + Ix of a point on the ground, which is its own. */
uint64_t rules_rectangle(uint64_t base, struct janlishuk_point point)
{
    struct rules_place place = rules_place(base, point);
    return 100 * place.iy + place.ix;
}

/* The word w = 16 wy + wx + 1 of a point on the ground, in its own rectangle. */
uint64_t rules_word(uint64_t base, struct janlishuk_point point)
{
    struct rules_place place = rules_place(base, point);
    return 16 * place.wy + place.wx + 1;
}

/* The number of the record of a rectangle, 0 if not covered. Rectangle 0 has no position and is never covered. */
uint64_t rules_record(struct rules_file file, uint64_t rectangle)
{
    return rectangle == 0 ? 0 : rules_position(file.bytes, rectangle);
}

/* Whether a point may be read from a rectangle, if it is covered: from its own always, from the one to the west with wx = 0 and fx = 0,
 * from the one to the south with wy = 0 and fy = 0, from the south-west one with all four 0. No rectangle lies west of column 0 or south
 * of row 0. */
bool rules_allowed(struct rules_place place, enum rules_from from)
{
    bool west = place.wx == 0 && place.fx == 0 && place.ix != 0;
    bool south = place.wy == 0 && place.fy == 0 && place.iy != 0;
    switch (from) {
    case RULES_OWN: return true;
    case RULES_WEST: return west;
    case RULES_SOUTH: return south;
    case RULES_SOUTH_WEST: return west && south;
    default: return false;
    }
}

/* Where a point stands in a rectangle that it may be read from: in its own at wx and wy, in the one to the west in column 15, in the one to
 * the south in row 31, in the south-west one in the corner of both. */
struct rules_seat rules_seat(struct rules_place place, enum rules_from from)
{
    struct rules_seat seat = {.rectangle = 100 * place.iy + place.ix, .column = place.wx, .row = place.wy};
    if (from == RULES_WEST || from == RULES_SOUTH_WEST) {
        seat.rectangle -= 1;
        seat.column = 15;
    }
    if (from == RULES_SOUTH || from == RULES_SOUTH_WEST) {
        seat.rectangle -= 100;
        seat.row = 31;
    }
    return seat;
}

/* The rectangle that a point on the ground is read from: own, west, south, south-west are tried, and the first covered that it may be read
 * from is taken; none where there is no such. */
enum rules_from rules_taken(struct rules_file file, struct janlishuk_point point)
{
    struct rules_place place = rules_place(file.base, point);
    for (enum rules_from from = RULES_OWN; from < RULES_NONE; from++)
        if (rules_allowed(place, from) && rules_record(file, rules_seat(place, from).rectangle) != 0)
            return from;
    return RULES_NONE;
}

/* The first of the entries of a point on the ground that isn't 0, tried in the order own, west, south, south-west of the rectangles that it
 * may be read from; 0 where there is none. No entry after it is looked at. */
uint64_t rules_entry_met(struct rules_file file, struct janlishuk_point point)
{
    enum rules_from taken = rules_taken(file, point);
    return taken == RULES_NONE ? 0 : rules_record(file, rules_seat(rules_place(file.base, point), taken).rectangle);
}

/* Word w of a record, records and words numbered from 1: 8192 x surface code + elevation, high byte first. */
static uint64_t word_of(struct rules_file file, uint64_t record, uint64_t w)
{
    const uint8_t *two = file.bytes + 1024 * (record - 1) + 2 * (w - 1);
    return 256 * (uint64_t)two[0] + two[1];
}

/* The corners of a point in a covered rectangle that it may be read from, SW, SE, NW, NE, with their weights. In its own they are the words
 * w, w+1, w+16, w+17. In one beside it, corners east of column 15 or north of row 31 are not in the record: they weigh 0, and elevation
 * and code are left 0. */
void rules_corners(struct rules_file file, struct janlishuk_point point, enum rules_from from, struct rules_corner corners[4])
{
    struct rules_place place = rules_place(file.base, point);
    struct rules_seat seat = rules_seat(place, from);
    uint64_t record = rules_record(file, seat.rectangle);
    uint64_t fx = place.fx;
    uint64_t fy = place.fy;
    const uint64_t weights[4] = {(500 - fx) * (500 - fy), fx * (500 - fy), (500 - fx) * fy, fx * fy};
    for (uint64_t k = 0; k < 4; k++) {
        uint64_t column = seat.column + k % 2;
        uint64_t row = seat.row + k / 2;
        corners[k] = (struct rules_corner){.weight = weights[k]};
        if (column > 15 || row > 31)
            continue;
        corners[k].elevation = word_of(file, record, 16 * row + column + 1) % 8192;
        corners[k].code = word_of(file, record, 16 * row + column + 1) / 8192;
    }
}

/* The surface code is the one with the greatest sum of weights, ties to the smaller code. */
static uint32_t surface_code(const struct rules_corner corners[4])
{
    uint64_t sums[8] = {0};
    for (int k = 0; k < 4; k++)
        sums[corners[k].code] += corners[k].weight;
    uint32_t best = 0;
    for (uint32_t code = 1; code < 8; code++)
        if (sums[code] > sums[best])
            best = code;
    return best;
}

/* What is read of a point in a covered rectangle that it may be read from: the exact height and the surface code, or refusal 6. */
struct janlishuk_read_answer rules_read_from(struct rules_file file, struct janlishuk_point point, enum rules_from from)
{
    struct janlishuk_read_answer answer = {0};
    struct rules_corner corners[4];
    rules_corners(file, point, from, corners);
    for (int k = 0; k < 4; k++)
        if (corners[k].weight > 0 && corners[k].elevation == RULES_NO_HEIGHT)
            return (struct janlishuk_read_answer){.refusal = 6};
    uint64_t sum = 0;
    for (int k = 0; k < 4; k++)
        sum += corners[k].weight * corners[k].elevation;
    answer.height = (uint32_t)sum;
    answer.code = surface_code(corners);
    return answer;
}

/* Whether the point's zone differs, or the point is not on the ground. */
static bool is_elsewhere(struct rules_file file, struct janlishuk_point point)
{
    return point.zone != file.zone || !rules_on_ground(file.base, point);
}

/* The reading of a point from the rectangle taken, whose entry is 7 to M: the exact height and the surface code, or the first of the
 * refusals 4, 5, 6 that holds. */
static struct janlishuk_read_answer reading(struct rules_file file, struct janlishuk_point point)
{
    if (is_elsewhere(file, point))
        return (struct janlishuk_read_answer){.refusal = 4};
    enum rules_from taken = rules_taken(file, point);
    if (taken == RULES_NONE)
        return (struct janlishuk_read_answer){.refusal = 5};
    return rules_read_from(file, point, taken);
}

/* The exact height at a point in units of 1/250,000 m and its surface code; refusals 1 to 6. */
struct janlishuk_read_answer rules_read(struct rules_file file, struct janlishuk_point point)
{
    uint32_t refusal = file_refusal(file);
    if (refusal != 0)
        return (struct janlishuk_read_answer){.refusal = refusal};
    return reading(file, point);
}

/* A reading that looks at the length, base, zone, M, and this point's entries up to the first that isn't 0, and at no others. Refusals: 1,
 * 2, 3 for M outside its range, 4, then 3 for the first entry looked at that is neither 0 nor 7 to M, then 5 and 6. */
struct janlishuk_read_answer rules_spot(struct rules_file file, struct janlishuk_point point)
{
    uint32_t refusal = opening_refusal(file);
    if (refusal == 0 && is_elsewhere(file, point))
        refusal = 4;
    if (refusal == 0 && !rules_entry_holds(file, rules_entry_met(file, point)))
        refusal = 3;
    if (refusal != 0)
        return (struct janlishuk_read_answer){.refusal = refusal};
    return reading(file, point);
}

/* Whether the lists of an upload fit: the two lists of points do not differ in length nor hold over 256, and no other list is shorter. */
bool rules_lists_fit(struct rules_lists lists)
{
    uint64_t points = lists.eastings_count;
    if (points != lists.northings_count || points > 256)
        return false;
    return lists.heights_room >= points && lists.codes_room >= points && lists.refusals_room >= points;
}

/* Writes into the entries of each point what the single reading gives for it in the file's zone: height, code and refusal number, 0 for a
 * point that is read. A refused point has height and code 0. Refusals 1, 2, 3, then 10 where the lists do not fit; any of these writes
 * nothing. Entries after the last point keep their content. */
struct janlishuk_upload_answer rules_upload(struct rules_file file, struct rules_lists lists)
{
    uint32_t refusal = file_refusal(file);
    if (refusal == 0 && !rules_lists_fit(lists))
        refusal = 10;
    if (refusal != 0)
        return (struct janlishuk_upload_answer){.refusal = refusal};
    for (uint64_t k = 0; k < lists.eastings_count; k++) {
        struct janlishuk_point point = {.zone = (uint32_t)file.zone, .easting = lists.eastings[k], .northing = lists.northings[k]};
        struct janlishuk_read_answer read = reading(file, point);
        lists.heights[k] = read.height;
        lists.codes[k] = (uint8_t)read.code;
        lists.refusals[k] = (uint8_t)read.refusal;
    }
    return (struct janlishuk_upload_answer){0};
}

/* Land with its height in metres and code, water (codes 3 and 6) with its level in metres and code, or a refusal. The metres are a
 * double: the exact sum divided once by 250,000. */
struct janlishuk_engine_point_answer rules_engine_point(struct rules_file file, struct janlishuk_point point)
{
    struct janlishuk_engine_point_answer answer = {0};
    struct janlishuk_read_answer read = rules_read(file, point);
    answer.refusal = read.refusal;
    if (read.refusal != 0)
        return answer;
    answer.kind = read.code == 3 || read.code == 6 ? JANLISHUK_WATER : JANLISHUK_LAND;
    answer.code = read.code;
    answer.metres = (double)read.height / 250000.0;
    return answer;
}

/* Q = dE² + dN² of two ends that are on the ground. */
uint64_t rules_square(struct janlishuk_point first, struct janlishuk_point second)
{
    int64_t de = (int64_t)second.easting - (int64_t)first.easting;
    int64_t dn = (int64_t)second.northing - (int64_t)first.northing;
    return (uint64_t)(de * de + dn * dn);
}

/* N is the least whole number of at least 1 with (500 N)² >= Q. */
uint64_t rules_steps(uint64_t q)
{
    uint64_t n = 1;
    while (500 * n * (500 * n) < q)
        n++;
    return n;
}

/* Sample i lies at ((N-i) E0 + i E1) / N truncated, northing likewise. */
struct janlishuk_point rules_sample(struct janlishuk_point first, struct janlishuk_point second, uint64_t n, uint64_t i)
{
    struct janlishuk_point sample;
    sample.zone = first.zone;
    sample.easting = (uint32_t)(((n - i) * first.easting + i * second.easting) / n);
    sample.northing = (uint32_t)(((n - i) * first.northing + i * second.northing) / n);
    return sample;
}

/* The first of the refusals 1, 2, 3, then 4 for the first end, 4 for the second, 7 (Q = 0 or Q > 10,000,000,000) that holds, else 0. */
static uint32_t path_refusal(struct rules_file file, struct janlishuk_point first, struct janlishuk_point second)
{
    uint32_t refusal = file_refusal(file);
    if (refusal != 0)
        return refusal;
    if (is_elsewhere(file, first))
        return 4;
    if (is_elsewhere(file, second))
        return 4;
    uint64_t q = rules_square(first, second);
    if (q == 0 || q > 10000000000)
        return 7;
    return 0;
}

/* The samples of a path that has none of the refusals 1 to 3, 4 for its ends, 7 and 8: N and the exact height and code of each, or the
 * refusal met at the first sample that has one and that sample's number as the place. */
static struct janlishuk_profile_answer samples(struct rules_file file, struct janlishuk_point first, struct janlishuk_point second)
{
    struct janlishuk_profile_answer answer = {0};
    uint64_t n = rules_steps(rules_square(first, second));
    for (uint64_t i = 0; i <= n; i++) {
        struct janlishuk_read_answer read = reading(file, rules_sample(first, second, n, i));
        if (read.refusal != 0)
            return (struct janlishuk_profile_answer){.refusal = read.refusal, .place = (uint32_t)i};
        answer.heights[i] = read.height;
        answer.codes[i] = (uint8_t)read.code;
    }
    answer.n = (uint32_t)n;
    return answer;
}

/* What a call on a path is asked with: its ends, two masts or mast limits, and a sample; 0 where the call has none. */
struct asked {
    struct janlishuk_point first, second;
    uint64_t a, b, i;
};

/* Whether a mast or mast limit is above 100, or the sample above N; asked of a path that was not refused. */
static bool too_much(struct asked asked)
{
    return asked.a > 100 || asked.b > 100 || asked.i > rules_steps(rules_square(asked.first, asked.second));
}

/* The profile that a call on a path speaks of, or its refusal: the file's and the path's, then 8, then the samples'. */
static struct janlishuk_profile_answer profile_for(struct rules_file file, struct asked asked)
{
    uint32_t refusal = path_refusal(file, asked.first, asked.second);
    if (refusal == 0 && too_much(asked))
        refusal = 8;
    if (refusal != 0)
        return (struct janlishuk_profile_answer){.refusal = refusal};
    return samples(file, asked.first, asked.second);
}

/* The profile: N, and the exact height and code of each sample; unused places are 0. Refusals 1 to 7. */
struct janlishuk_profile_answer rules_profile(struct rules_file file, struct janlishuk_point first, struct janlishuk_point second)
{
    return profile_for(file, (struct asked){.first = first, .second = second});
}

/* G, which is Q i (N-i) / (17,000 N²) rounded up, in millimetres. */
uint64_t rules_bulge(uint64_t q, uint64_t n, uint64_t i)
{
    uint64_t above = q * i * (n - i);
    uint64_t below = 17000 * n * n;
    return above / below + (above % below != 0);
}

/* A height of 1/250,000 m in millimetres, rounded down. */
static int64_t rounded_down(uint64_t height)
{
    return (int64_t)(height * 1000 / 250000);
}

/* A height of 1/250,000 m in millimetres, rounded up. */
static int64_t rounded_up(uint64_t height)
{
    return (int64_t)(height * 1000 / 250000 + (height * 1000 % 250000 != 0));
}

/* The figures of the clear test that do not depend on the masts. */
struct rules_sight rules_sight(const struct janlishuk_profile_answer *profile, uint64_t q)
{
    struct rules_sight sight = {0};
    sight.n = profile->n;
    sight.first = rounded_down(profile->heights[0]);
    sight.last = rounded_down(profile->heights[sight.n]);
    for (int64_t i = 1; i <= sight.n - 1; i++) {
        int64_t t = rounded_up(profile->heights[i]);
        int64_t g = (int64_t)rules_bulge(q, (uint64_t)sight.n, (uint64_t)i);
        sight.need[i] = sight.n * (t + g);
    }
    return sight;
}

/* How far (N-i) A + i B is above N (T + G) at sample i; below 0 where it is not at least that. */
int64_t rules_spare(const struct rules_sight *sight, int64_t i, int64_t a, int64_t b)
{
    int64_t end_a = sight->first + 1000 * a;
    int64_t end_b = sight->last + 1000 * b;
    return (sight->n - i) * end_a + i * end_b - sight->need[i];
}

/* Whether for each i from 1 to N-1: (N-i) A + i B >= N (T + G). Touching is clear. With N = 1 every pair is clear. */
bool rules_clear(const struct rules_sight *sight, int64_t a, int64_t b)
{
    for (int64_t i = 1; i <= sight->n - 1; i++)
        if (rules_spare(sight, i, a, b) < 0)
            return false;
    return true;
}

/* Whether the path is clear with masts a and b; refusals 1 to 8. */
struct janlishuk_verdict_answer rules_verdict(struct rules_file file, struct janlishuk_point first, struct janlishuk_point second,
                                              uint64_t a, uint64_t b)
{
    struct janlishuk_profile_answer profile = profile_for(file, (struct asked){.first = first, .second = second, .a = a, .b = b});
    struct janlishuk_verdict_answer answer = {.refusal = profile.refusal, .place = profile.place};
    if (answer.refusal != 0)
        return answer;
    struct rules_sight sight = rules_sight(&profile, rules_square(first, second));
    answer.clear = rules_clear(&sight, (int64_t)a, (int64_t)b) ? 1 : 0;
    return answer;
}

/* The first clear pair, in order of the sum and then of the first mast, with each mast within its limit; else refusal 9. */
static struct janlishuk_plan_answer first_clear_pair(const struct rules_sight *sight, uint64_t la, uint64_t lb)
{
    for (uint64_t sum = 0; sum <= la + lb; sum++)
        for (uint64_t first = 0; first <= sum; first++) {
            uint64_t second = sum - first;
            if (first > la || second > lb)
                continue;
            if (rules_clear(sight, (int64_t)first, (int64_t)second))
                return (struct janlishuk_plan_answer){.first = (uint32_t)first, .second = (uint32_t)second};
        }
    return (struct janlishuk_plan_answer){.refusal = 9};
}

/* The masts within the limits that make the path clear with the least sum, and with that sum the lower first mast; refusals 1 to 9. */
struct janlishuk_plan_answer rules_plan(struct rules_file file, struct janlishuk_point first, struct janlishuk_point second,
                                        uint64_t la, uint64_t lb)
{
    struct janlishuk_profile_answer profile = profile_for(file, (struct asked){.first = first, .second = second, .a = la, .b = lb});
    if (profile.refusal != 0)
        return (struct janlishuk_plan_answer){.refusal = profile.refusal, .place = profile.place};
    struct rules_sight sight = rules_sight(&profile, rules_square(first, second));
    return first_clear_pair(&sight, la, lb);
}

/* An engine row: the height of sample i in metres, and its share of the way, i divided once by N. It is given only where the whole profile
 * is; refusals 1 to 8, 8 for a sample above N. */
struct janlishuk_engine_row_answer rules_engine_row(struct rules_file file, struct janlishuk_point first, struct janlishuk_point second,
                                                    uint64_t i)
{
    struct janlishuk_profile_answer profile = profile_for(file, (struct asked){.first = first, .second = second, .i = i});
    struct janlishuk_engine_row_answer answer = {.refusal = profile.refusal, .place = profile.place};
    if (answer.refusal != 0)
        return answer;
    answer.height = (double)profile.heights[i] / 250000.0;
    answer.share = (double)i / (double)profile.n;
    return answer;
}
