/* The calls check, read, profile, verdict and plan as document 01 and request b) of document 02 have them, and upload and spot as document 02 has
 * them, in plain C. */
#include "plain.h"

#include <stdbool.h>
#include <string.h>

#define RECORD_BYTES 1024u
#define LEAST_RECORDS 6u
#define MOST_RECORDS 4096u
#define POSITIONS 3072u
#define COLUMNS 100u
#define UNIT 500u
#define UNITS_EAST 15u
#define UNITS_NORTH 31u
#define ROW_WORDS 16u
#define CODES 8u
#define ELEVATIONS 8192u
#define NO_HEIGHT 8191u
#define WEST 125000u
#define WIDTH 750000u
#define MOST_Q 10000000000u
#define MOST_N 200u
#define MOST_MAST 100u
#define MOST_POINTS 256u

/* The southern boundaries of the bases 0, 4, .. 84, in 500 m units. */
static const uint16_t southern[] = {0,     899,   1767,  2666,  3534,  4433,  5301,  6200,  7068,  7967,  8866,
                                    9734,  10633, 11532, 12400, 13299, 14198, 15097, 15965, 16864, 17763, 18662};

/* A file that was opened and its ground, whose southern boundary and extent to the north are in metres. */
struct ground {
    const uint8_t *file;
    uint32_t zone;
    uint32_t south;
    uint32_t extent;
    uint32_t highest;
};

/* A path whose ends lie on the ground of a file. The place is that of a refusal. */
struct path {
    struct ground ground;
    struct janlishuk_point first;
    struct janlishuk_point second;
    uint64_t q;
    uint32_t n;
    uint32_t place;
};

/* N (T + G) at each of the samples 1 to N - 1, and the heights of the two ends rounded down, all in millimetres. */
struct needs {
    uint32_t n;
    uint32_t place;
    uint32_t first;
    uint32_t second;
    uint32_t at[JANLISHUK_ROOM];
};

/* A 16-bit number, high byte first. */
static inline uint32_t number_at(const uint8_t *bytes)
{
    return (uint32_t)bytes[0] << 8 | bytes[1];
}

/* What position n of the index holds; positions are numbered from 1. */
static inline uint32_t position(const uint8_t *file, size_t n)
{
    return number_at(file + 2 * (n - 1));
}

/* Whether positions 1 to end - 1 each hold 0 or 7 to M, no nonzero number twice, and those from end to 3071 hold 0. */
static bool index_passes(const uint8_t *file, size_t highest, size_t end)
{
    bool named[MOST_RECORDS + 1];
    memset(named, 0, highest + 1);
    for (size_t n = 1; n < end; n++) {
        size_t record = position(file, n);
        if (record == 0)
            continue;
        if (record <= LEAST_RECORDS || record > highest || named[record])
            return false;
        named[record] = true;
    }
    for (size_t n = end; n < POSITIONS; n++) {
        if (position(file, n) != 0)
            return false;
    }
    return true;
}

/* Opens a file with its base and zone, of whose index only M is looked at: refusals 1, 2, and 3 for M outside its range, else 0 and its ground. */
static inline uint32_t open_file(const uint8_t *file, size_t length, uint32_t base, uint32_t zone, struct ground *ground)
{
    if (length % RECORD_BYTES != 0 || length < LEAST_RECORDS * RECORD_BYTES || length > MOST_RECORDS * RECORD_BYTES)
        return 1;
    if (base % 4 != 0 || base > 80 || zone < 1 || zone > 60)
        return 2;
    uint32_t highest = position(file, POSITIONS);
    if (highest < LEAST_RECORDS || highest > length / RECORD_BYTES)
        return 3;
    uint32_t south = southern[base / 4];
    uint32_t units = southern[base / 4 + 1] - south;
    *ground = (struct ground){.file = file, .zone = zone, .south = UNIT * south, .extent = UNIT * units, .highest = highest};
    return 0;
}

/* Opens a file and checks its whole index: refusals 1, 2 and 3 in that order, else 0 and its ground. */
static uint32_t check_file(const uint8_t *file, size_t length, uint32_t base, uint32_t zone, struct ground *ground)
{
    uint32_t refusal = open_file(file, length, base, zone, ground);
    if (refusal != 0)
        return refusal;
    return index_passes(file, ground->highest, COLUMNS * (ground->extent / (UNIT * UNITS_NORTH))) ? 0 : 3;
}

/* Whether a point is of the file's zone and on its ground. */
static inline bool on_ground(const struct ground *ground, const struct janlishuk_point *point)
{
    return point->zone == ground->zone && point->easting - WEST < WIDTH && point->northing - ground->south < ground->extent;
}

/* What the index says of a rectangle: the number of its record, or 0. Rectangle 0 has no position. */
static inline uint32_t entry(const uint8_t *file, uint32_t rectangle)
{
    return rectangle == 0 ? 0 : position(file, rectangle);
}

/* The part of a file from the word of a record in this row and column on. */
static inline const uint8_t *word_at(const uint8_t *file, uint32_t record, uint32_t row, uint32_t column)
{
    return file + RECORD_BYTES * (record - 1) + 2 * (ROW_WORDS * row + column);
}

/* The word of a point whose own rectangle is not covered, in the first covered of the rectangles to the west, south and south-west on whose
 * edge it lies, for its units and metres past them, and that rectangle's record; null and 0 where none is. */
static const uint8_t *find_beside(const uint8_t *file, uint32_t x, uint32_t y, uint32_t fx, uint32_t fy, uint32_t *record)
{
    uint32_t rectangle = COLUMNS * (y / UNITS_NORTH) + x / UNITS_EAST;
    bool west = x >= UNITS_EAST && x % UNITS_EAST == 0 && fx == 0;
    bool south = y >= UNITS_NORTH && y % UNITS_NORTH == 0 && fy == 0;
    if (west && (*record = entry(file, rectangle - 1)) != 0)
        return word_at(file, *record, y % UNITS_NORTH, UNITS_EAST);
    if (south && (*record = entry(file, rectangle - COLUMNS)) != 0)
        return word_at(file, *record, UNITS_NORTH, x % UNITS_EAST);
    if (west && south && (*record = entry(file, rectangle - COLUMNS - 1)) != 0)
        return word_at(file, *record, UNITS_NORTH, UNITS_EAST);
    *record = 0;
    return NULL;
}

/* Whether a word says that there is no height. */
static inline bool lacks_height(uint32_t word)
{
    return word % ELEVATIONS == NO_HEIGHT;
}

/* A corner's surface code and what it weighs, or what corners of that code weigh together. */
struct sum {
    uint32_t code;
    uint32_t weight;
};

/* What a sum weighs for a code: all of it if the code is its own. */
static inline uint32_t weight_for(struct sum sum, uint32_t code)
{
    return sum.code == code ? sum.weight : 0;
}

/* Code and weight as one number, greater for a greater weight and, where weights tie, for a smaller code. */
static inline uint32_t rank(uint32_t code, uint32_t weight)
{
    return CODES * weight + (CODES - 1 - code);
}

/* The greater of two numbers. */
static inline uint32_t greater(uint32_t a, uint32_t b)
{
    return a < b ? b : a;
}

/* The code of the heavier of two sums, on a tie the smaller code. */
static inline uint32_t vote_of_two(uint32_t a, uint32_t a_weight, uint32_t b, uint32_t b_weight)
{
    if (a == b)
        return a;
    return a_weight < b_weight || (a_weight == b_weight && b < a) ? b : a;
}

/* The surface code with the greatest sum of weights, ties to the smaller code. Where each row or each column of the corners has one code, two
 * sums decide, and none where these are the same; else each code is added up from the first corner that has it over those that follow. */
static inline uint32_t vote(struct sum sw, struct sum se, struct sum nw, struct sum ne)
{
    if (sw.code == se.code && nw.code == ne.code)
        return vote_of_two(sw.code, sw.weight + se.weight, nw.code, nw.weight + ne.weight);
    if (sw.code == nw.code && se.code == ne.code)
        return vote_of_two(sw.code, sw.weight + nw.weight, se.code, se.weight + ne.weight);
    uint32_t of_sw = sw.weight + weight_for(se, sw.code) + weight_for(nw, sw.code) + weight_for(ne, sw.code);
    uint32_t of_se = se.weight + weight_for(nw, se.code) + weight_for(ne, se.code);
    uint32_t of_nw = nw.weight + weight_for(ne, nw.code);
    uint32_t south = greater(rank(sw.code, of_sw), rank(se.code, of_se));
    uint32_t north = greater(rank(nw.code, of_nw), rank(ne.code, ne.weight));
    return CODES - 1 - greater(south, north) % CODES;
}

/* Whether an entry names a record, one from 7 to M. */
static inline bool is_record(const struct ground *ground, uint32_t entry)
{
    return entry - LEAST_RECORDS - 1 < ground->highest - LEAST_RECORDS;
}

/* Reads a point's exact height, and its surface code unless that is null: refusals 4, 5 and 6 in that order, else 0; where the file was only
 * opened, not checked, refusals 4, 3 for an entry that names no record, 5 and 6. */
static inline __attribute__((always_inline)) uint32_t read_in(const struct ground *ground, const struct janlishuk_point *point, bool checked,
                                                              uint32_t *height, uint8_t *code)
{
    if (!on_ground(ground, point))
        return 4;
    uint32_t east = point->easting - WEST, north = point->northing - ground->south;
    uint32_t x = east / UNIT, y = north / UNIT, fx = east % UNIT, fy = north % UNIT;
    uint32_t record = entry(ground->file, COLUMNS * (y / UNITS_NORTH) + x / UNITS_EAST);
    uint32_t sw, se, nw, ne;
    if (record != 0) {
        if (!checked && !is_record(ground, record))
            return 3;
        const uint8_t *corner = word_at(ground->file, record, y % UNITS_NORTH, x % UNITS_EAST);
        sw = number_at(corner);
        se = number_at(corner + 2);
        nw = number_at(corner + 2 * ROW_WORDS);
        ne = number_at(corner + 2 * ROW_WORDS + 2);
        /* on a grid line a corner that does not weigh in stands for the one beside it, so that it lacks no height and has no code of its own */
        if (fx == 0 || fy == 0) {
            se = fx == 0 ? sw : se;
            nw = fy == 0 ? sw : nw;
            ne = fx == 0 ? nw : se;
        }
    } else {
        const uint8_t *corner = find_beside(ground->file, x, y, fx, fy, &record);
        if (record == 0)
            return 5;
        if (!checked && !is_record(ground, record))
            return 3;
        /* a corner that does not weigh in may lie past the record, even past the file: it is not looked at */
        sw = number_at(corner);
        se = fx > 0 ? number_at(corner + 2) : sw;
        nw = fy > 0 ? number_at(corner + 2 * ROW_WORDS) : sw;
        ne = fx > 0 ? se : nw;
    }
    uint32_t sw_weight = (UNIT - fx) * (UNIT - fy), se_weight = fx * (UNIT - fy);
    uint32_t nw_weight = (UNIT - fx) * fy, ne_weight = fx * fy;
    if (lacks_height(sw) || lacks_height(se) || lacks_height(nw) || lacks_height(ne))
        return 6;
    *height = sw_weight * (sw % ELEVATIONS) + se_weight * (se % ELEVATIONS) + nw_weight * (nw % ELEVATIONS) + ne_weight * (ne % ELEVATIONS);
    if (code != NULL) {
        struct sum of_sw = {sw / ELEVATIONS, sw_weight}, of_se = {se / ELEVATIONS, se_weight};
        struct sum of_nw = {nw / ELEVATIONS, nw_weight}, of_ne = {ne / ELEVATIONS, ne_weight};
        *code = (uint8_t)vote(of_sw, of_se, of_nw, of_ne);
    }
    return 0;
}

/* Reads a point of a checked file: refusals 4, 5 and 6 in that order, else 0. */
static uint32_t read_point(const struct ground *ground, const struct janlishuk_point *point, uint32_t *height, uint8_t *code)
{
    return read_in(ground, point, true, height, code);
}

/* The least whole number N of at least 1 with (500 N)^2 >= Q, for Q from 1 to 10,000,000,000. */
static uint32_t least_steps(uint64_t q)
{
    uint32_t below = 0, n = MOST_N;
    while (n - below > 1) {
        uint32_t middle = (below + n) / 2;
        uint64_t reach = (uint64_t)UNIT * middle;
        if (reach * reach >= q)
            n = middle;
        else
            below = middle;
    }
    return n;
}

/* Opens a file and a path on it: refusals 1, 2, 3, then 4 for each end, then 7, else 0. */
static uint32_t open_path(const uint8_t *file, size_t length, uint32_t base, uint32_t zone, struct janlishuk_point first,
                          struct janlishuk_point second, struct path *path)
{
    path->place = 0;
    uint32_t refusal = check_file(file, length, base, zone, &path->ground);
    if (refusal != 0)
        return refusal;
    if (!on_ground(&path->ground, &first) || !on_ground(&path->ground, &second))
        return 4;
    int64_t east = (int64_t)second.easting - first.easting, north = (int64_t)second.northing - first.northing;
    uint64_t q = (uint64_t)(east * east + north * north);
    if (q == 0 || q > MOST_Q)
        return 7;
    path->first = first;
    path->second = second;
    path->q = q;
    path->n = least_steps(q);
    return 0;
}

/* Reads the samples from 0 upward, their codes where there is room for them: refusals 4, 5 and 6 at the path's place, else 0. */
static uint32_t read_samples(struct path *path, uint32_t *heights, uint8_t *codes)
{
    const struct janlishuk_point first = path->first, second = path->second;
    struct janlishuk_point sample = first;
    uint32_t n = path->n;
    for (uint32_t i = 0; i <= n; i++) {
        sample.easting = ((n - i) * first.easting + i * second.easting) / n;
        sample.northing = ((n - i) * first.northing + i * second.northing) / n;
        uint32_t refusal = read_point(&path->ground, &sample, &heights[i], codes == NULL ? NULL : &codes[i]);
        if (refusal != 0) {
            path->place = i;
            return refusal;
        }
    }
    return 0;
}

/* Opens a path for masts or mast limits of a and b and reads its heights: refusals 1 to 8 in their order, else 0. */
static uint32_t read_link(const uint8_t *file, size_t length, uint32_t base, uint32_t zone, struct janlishuk_point first,
                          struct janlishuk_point second, uint32_t a, uint32_t b, struct path *path, uint32_t *heights)
{
    uint32_t refusal = open_path(file, length, base, zone, first, second, path);
    if (refusal != 0)
        return refusal;
    if (a > MOST_MAST || b > MOST_MAST)
        return 8;
    return read_samples(path, heights, NULL);
}

/* N (T + G) at sample i, in millimetres: T and G are each rounded up. */
static inline uint32_t need(const struct path *path, const uint32_t *heights, uint32_t i)
{
    uint64_t n = path->n, divisor = 17000 * n * n;
    uint64_t curve = (path->q * (i * (n - i)) + divisor - 1) / divisor;
    return path->n * ((heights[i] + 249) / 250 + (uint32_t)curve);
}

/* Reads the heights of a path and finds what each of its samples needs: refusals 1 to 8 in their order, else 0. */
static uint32_t find_needs(const uint8_t *file, size_t length, uint32_t base, uint32_t zone, struct janlishuk_point first,
                           struct janlishuk_point second, uint32_t la, uint32_t lb, struct needs *needs)
{
    struct path path;
    uint32_t heights[JANLISHUK_ROOM];
    uint32_t refusal = read_link(file, length, base, zone, first, second, la, lb, &path, heights);
    needs->place = path.place;
    if (refusal != 0)
        return refusal;
    needs->n = path.n;
    needs->first = heights[0] / 250;
    needs->second = heights[path.n] / 250;
    for (uint32_t i = 1; i < path.n; i++)
        needs->at[i] = need(&path, heights, i);
    return 0;
}

/* The clear test with masts a and b; touching is clear. */
static bool is_clear(const struct needs *needs, uint32_t a, uint32_t b)
{
    uint32_t n = needs->n, first = needs->first + 1000 * a, second = needs->second + 1000 * b;
    for (uint32_t i = 1; i < n; i++) {
        if ((n - i) * first + i * second < needs->at[i])
            return false;
    }
    return true;
}

/* The check of a file. */
struct janlishuk_check_answer plain_check(const uint8_t *file, size_t length, uint32_t base, uint32_t zone)
{
    struct ground ground;
    uint32_t refusal = check_file(file, length, base, zone, &ground);
    return (struct janlishuk_check_answer){.refusal = refusal, .highest = refusal == 0 ? ground.highest : 0};
}

/* The reading of one point, with a check of the whole index or without one. */
static inline __attribute__((always_inline)) struct janlishuk_read_answer answer_point(const uint8_t *file, size_t length, uint32_t base,
                                                                                       uint32_t zone, struct janlishuk_point point, bool checked)
{
    struct ground ground;
    uint32_t height = 0;
    uint8_t code = 0;
    uint32_t refusal = checked ? check_file(file, length, base, zone, &ground) : open_file(file, length, base, zone, &ground);
    if (refusal == 0)
        refusal = checked ? read_point(&ground, &point, &height, &code) : read_in(&ground, &point, false, &height, &code);
    if (refusal != 0)
        return (struct janlishuk_read_answer){.refusal = refusal};
    return (struct janlishuk_read_answer){.height = height, .code = code};
}

/* The reading of one point. */
struct janlishuk_read_answer plain_read(const uint8_t *file, size_t length, uint32_t base, uint32_t zone, struct janlishuk_point point)
{
    return answer_point(file, length, base, zone, point, true);
}

/* The reading of one spot. */
struct janlishuk_read_answer plain_spot(const uint8_t *file, size_t length, uint32_t base, uint32_t zone, struct janlishuk_point point)
{
    return answer_point(file, length, base, zone, point, false);
}

/* The readings of a survey's points: one check of the file, then each point as a reading; beside a refusal nothing is written. */
struct janlishuk_upload_answer plain_upload(const uint8_t *file, size_t length, uint32_t base, uint32_t zone, const uint32_t *eastings,
                                            size_t eastings_count, const uint32_t *northings, size_t northings_count, uint32_t *heights,
                                            size_t heights_room, uint8_t *codes, size_t codes_room, uint8_t *refusals,
                                            size_t refusals_room)
{
    struct ground ground;
    size_t count = eastings_count;
    uint32_t refusal = check_file(file, length, base, zone, &ground);
    if (refusal != 0)
        return (struct janlishuk_upload_answer){.refusal = refusal};
    if (northings_count != count || count > MOST_POINTS || heights_room < count || codes_room < count || refusals_room < count)
        return (struct janlishuk_upload_answer){.refusal = 10};
    for (size_t k = 0; k < count; k++) {
        struct janlishuk_point point = {.zone = zone, .easting = eastings[k], .northing = northings[k]};
        uint32_t height = 0;
        uint8_t code = 0;
        refusals[k] = (uint8_t)read_point(&ground, &point, &height, &code);
        heights[k] = height;
        codes[k] = code;
    }
    return (struct janlishuk_upload_answer){.refusal = 0};
}

/* The path profile; unused places are 0. */
struct janlishuk_profile_answer plain_profile(const uint8_t *file, size_t length, uint32_t base, uint32_t zone,
                                              struct janlishuk_point first, struct janlishuk_point second)
{
    struct janlishuk_profile_answer answer;
    struct path path;
    uint32_t refusal = open_path(file, length, base, zone, first, second, &path);
    if (refusal == 0)
        refusal = read_samples(&path, answer.heights, answer.codes);
    uint32_t used = refusal == 0 ? path.n + 1 : 0;
    memset(answer.heights + used, 0, (JANLISHUK_ROOM - used) * sizeof answer.heights[0]);
    memset(answer.codes + used, 0, JANLISHUK_ROOM - used);
    answer.refusal = refusal;
    answer.place = path.place;
    answer.n = refusal == 0 ? path.n : 0;
    return answer;
}

/* Whether a path whose heights were read is clear with masts a and b, up to the first sample that blocks. */
static inline __attribute__((always_inline)) bool sees(const struct path *path, const uint32_t *heights, uint32_t a, uint32_t b)
{
    uint32_t n = path->n, top_a = heights[0] / 250 + 1000 * a, top_b = heights[n] / 250 + 1000 * b;
    for (uint32_t i = 1; i < n; i++) {
        if ((n - i) * top_a + i * top_b < need(path, heights, i))
            return false;
    }
    return true;
}

/* The clear verdict with masts a and b. */
struct janlishuk_verdict_answer plain_verdict(const uint8_t *file, size_t length, uint32_t base, uint32_t zone,
                                              struct janlishuk_point first, struct janlishuk_point second, uint32_t a, uint32_t b)
{
    struct path path;
    uint32_t heights[JANLISHUK_ROOM];
    uint32_t refusal = read_link(file, length, base, zone, first, second, a, b, &path, heights);
    if (refusal != 0)
        return (struct janlishuk_verdict_answer){.refusal = refusal, .place = path.place};
    if (!sees(&path, heights, a, b))
        return (struct janlishuk_verdict_answer){.clear = 0};
    return (struct janlishuk_verdict_answer){.clear = 1};
}

/* N and the clear verdict without masts. */
struct plain_sight_answer plain_sight(const uint8_t *file, size_t length, uint32_t base, uint32_t zone, struct janlishuk_point first,
                                      struct janlishuk_point second)
{
    struct path path;
    uint32_t heights[JANLISHUK_ROOM];
    uint32_t refusal = read_link(file, length, base, zone, first, second, 0, 0, &path, heights);
    if (refusal != 0)
        return (struct plain_sight_answer){.refusal = refusal};
    return (struct plain_sight_answer){.n = path.n, .clear = sees(&path, heights, 0, 0)};
}

/* The mast plan. Raising the first mast never raises the least second mast, so the two go over the pairs as down a staircase. */
struct janlishuk_plan_answer plain_plan(const uint8_t *file, size_t length, uint32_t base, uint32_t zone, struct janlishuk_point first,
                                        struct janlishuk_point second, uint32_t la, uint32_t lb)
{
    struct needs needs;
    uint32_t refusal = find_needs(file, length, base, zone, first, second, la, lb, &needs);
    if (refusal != 0)
        return (struct janlishuk_plan_answer){.refusal = refusal, .place = needs.place};
    uint32_t a = 0, b = lb;
    while (!is_clear(&needs, a, b)) {
        if (a == la)
            return (struct janlishuk_plan_answer){.refusal = 9};
        a++;
    }
    struct janlishuk_plan_answer least = {.first = a, .second = b};
    for (; a <= la && a < least.first + least.second; a++) {
        while (b > 0 && is_clear(&needs, a, b - 1))
            b--;
        if (a + b < least.first + least.second)
            least = (struct janlishuk_plan_answer){.first = a, .second = b};
    }
    return least;
}

/* The mast plan by every pair, in order of sum and then of the first mast. */
struct janlishuk_plan_answer plain_plan_every_pair(const uint8_t *file, size_t length, uint32_t base, uint32_t zone,
                                                   struct janlishuk_point first, struct janlishuk_point second, uint32_t la, uint32_t lb)
{
    struct needs needs;
    uint32_t refusal = find_needs(file, length, base, zone, first, second, la, lb, &needs);
    if (refusal != 0)
        return (struct janlishuk_plan_answer){.refusal = refusal, .place = needs.place};
    for (uint32_t sum = 0; sum <= la + lb; sum++) {
        for (uint32_t a = sum > lb ? sum - lb : 0; a <= la && a <= sum; a++) {
            if (is_clear(&needs, a, sum - a))
                return (struct janlishuk_plan_answer){.first = a, .second = sum - a};
        }
    }
    return (struct janlishuk_plan_answer){.refusal = 9};
}
