/* Counting what came up where rectangles meet, and which of them readings were taken from. */
#include <inttypes.h>
#include <stdio.h>

#include "tally.h"

/* The kinds of seams that a point can be on: only a western edge, only a southern one, or the corner of both. */
#define SEAMS 3
/* Every choice of the four rectangles, a bit for each in the order of rules_from. */
#define CHOICES 16

static const char *const seam_names[SEAMS] = {"western edge", "southern edge", "corner"};

static uint64_t readings[RULES_NONE];
static uint64_t answers[CALLS][RULES_NONE];
static uint64_t points_on[SEAMS][CHOICES];

/* A point on the ground as it is counted: where it lies, whether it is on an edge of its rectangle, and which of the four rectangles about
 * its south-western corner are there and covered, and which of these it may be read from, a bit for each. */
struct seen {
    struct rules_place place;
    bool western;
    bool southern;
    uint32_t covered;
    uint32_t readable;
};

/* What a reading from one of the four rectangles is called. */
const char *from_name(enum rules_from from)
{
    static const char *const names[RULES_NONE] = {"from own", "from west", "from south", "from south-west"};
    return names[from];
}

/* What is seen of a point on the ground. */
static struct seen look_at(struct rules_file file, struct janlishuk_point point)
{
    struct seen seen = {.place = rules_place(file.base, point)};
    struct rules_place corner = {.ix = seen.place.ix, .iy = seen.place.iy};
    seen.western = seen.place.wx == 0 && seen.place.fx == 0;
    seen.southern = seen.place.wy == 0 && seen.place.fy == 0;
    for (enum rules_from from = RULES_OWN; from < RULES_NONE; from++) {
        if (!rules_allowed(corner, from) || rules_record(file, rules_seat(corner, from).rectangle) == 0)
            continue;
        seen.covered |= ONLY(from);
        if (rules_allowed(seen.place, from))
            seen.readable |= ONLY(from);
    }
    return seen;
}

/* Whether some of the other covered rectangles that a point may be read from, a bit for each, gives another answer than the one given. */
static bool differs(struct rules_file file, struct janlishuk_point point, uint32_t others, struct janlishuk_read_answer read)
{
    bool any = false;
    for (enum rules_from from = RULES_OWN; from < RULES_NONE; from++) {
        if (!(others & ONLY(from)))
            continue;
        struct janlishuk_read_answer other = rules_read_from(file, point, from);
        any = any || other.refusal != read.refusal || other.height != read.height || other.code != read.code;
    }
    return any;
}

/* Counts a point that was read: from which words, and whether another rectangle would have given another answer. */
static void tally_read(struct rules_file file, struct janlishuk_point point, struct seen seen, enum rules_from taken)
{
    struct rules_place place = seen.place;
    struct rules_seat seat = rules_seat(place, taken);
    struct janlishuk_read_answer read = rules_read_from(file, point, taken);
    uint64_t word = 16 * seat.row + seat.column + 1;
    bool beside = taken != RULES_OWN;
    bool corner = seen.western && seen.southern;
    bool last_record = rules_record(file, seat.rectangle) == file.length / 1024;
    uint32_t others = seen.readable & ~ONLY(taken);
    count_if(taken == RULES_OWN && differs(file, point, others, read), SEAM_OWN);
    count_if(taken == RULES_WEST && differs(file, point, others & ONLY(RULES_SOUTH), read), SEAM_WEST);
    count_if(taken == RULES_SOUTH && differs(file, point, others, read), SEAM_SOUTH);
    count_if(taken == RULES_WEST && place.fy == 0, COLUMN_15);
    count_if(taken == RULES_WEST && place.fy > 0, COLUMN_15_MEAN);
    count_if(taken == RULES_SOUTH && place.fx == 0, ROW_31);
    count_if(taken == RULES_SOUTH && place.fx > 0, ROW_31_MEAN);
    count_if(taken == RULES_SOUTH_WEST, WORD_512);
    count_if(beside && last_record && word + 17 > 512, FILE_END);
    count_if(beside && place.ix == 99, COLUMN_99);
    count_if(beside && place.iy == rules_rows(file.base) - 1, FINAL_ROW);
    count_if(corner && place.iy == 0 && taken == RULES_WEST, ROW_0_CORNER);
    count_if(corner && place.ix == 0 && taken == RULES_SOUTH, COLUMN_0_CORNER);
}

/* Counts a point that none of the allowed rectangles covers. */
static void tally_bare(struct rules_file file, struct seen seen)
{
    struct rules_place place = seen.place;
    uint64_t own = 100 * place.iy + place.ix;
    bool western = seen.western;
    bool southern = seen.southern;
    bool corner = western && southern;
    count_if(western && !southern, BARE_WESTERN);
    count_if(southern && !western, BARE_SOUTHERN);
    count_if(corner, BARE_CORNER);
    count_if(western && !southern && seen.covered != 0, WESTERN_ONLY);
    count_if(southern && !western && seen.covered != 0, SOUTHERN_ONLY);
    count_if(western && place.ix == 0 && own > 1 && rules_record(file, own - 1) != 0, COLUMN_0_EDGE);
    count_if(corner && place.ix == 0 && own > 101 && rules_record(file, own - 101) != 0, COLUMN_0_FAR);
    count_if(southern && place.iy == 0, ROW_0_EDGE);
    count_if(western && own == 1, WEST_OF_1);
    count_if(southern && own == 100, SOUTH_OF_100);
    count_if(corner && own == 101, CORNER_OF_101);
    bool west_covered = place.wx == 0 && (seen.covered & ONLY(RULES_WEST)) != 0;
    bool south_covered = place.wy == 0 && (seen.covered & ONLY(RULES_SOUTH)) != 0;
    count_if(west_covered && place.fx > 0, EAST_OF_SEAM);
    count_if(west_covered && place.fx == 1, METRE_EAST);
    count_if(south_covered && place.fy > 0, NORTH_OF_SEAM);
    count_if(south_covered && place.fy == 1, METRE_NORTH);
}

/* Whether a point is read in some covered rectangle that it may be read from and that is tried after the one taken. */
static bool read_later(struct rules_file file, struct janlishuk_point point, uint32_t readable, enum rules_from taken)
{
    bool any = false;
    for (enum rules_from from = taken + 1; from < RULES_NONE; from++)
        any = any || ((readable & ONLY(from)) != 0 && rules_read_from(file, point, from).refusal == 0);
    return any;
}

/* Counts a point that lacks a height in the record taken. */
static void tally_missing(struct rules_file file, struct janlishuk_point point, struct seen seen, enum rules_from taken)
{
    bool later = read_later(file, point, seen.readable, taken);
    count_if(taken == RULES_WEST, MISSING_WEST);
    count_if(taken == RULES_SOUTH, MISSING_SOUTH);
    count_if(taken == RULES_SOUTH_WEST, MISSING_SOUTH_WEST);
    count_if(later && taken == RULES_OWN, OWN_MISSING);
    count_if(later && taken != RULES_OWN, BESIDE_MISSING);
}

/* Whether a point on the ground lies in a covered rectangle. */
static bool in_covered(struct rules_file file, struct janlishuk_point point)
{
    return rules_on_ground(file.base, point) && rules_record(file, rules_rectangle(file.base, point)) != 0;
}

/* Counts a point that is refused since it is on the eastern or the northern edge of the ground, which no file has, though the rectangle
 * before the edge is covered. */
static void tally_outside(struct rules_file file, struct janlishuk_point point)
{
    struct janlishuk_point before = {.zone = point.zone, .easting = point.easting - 1, .northing = point.northing};
    struct janlishuk_point beneath = {.zone = point.zone, .easting = point.easting, .northing = point.northing - 1};
    count_if(point.zone == file.zone && in_covered(file, before), EASTERN_BOUND);
    count_if(point.zone == file.zone && in_covered(file, beneath), NORTHERN_BOUND);
}

/* Counts what came of a point asked about, with the refusal that it was given, 0 where it was read and else 4 to 6. Answers the bit of the
 * rectangle that it was read from, or 0. */
uint32_t tally_point(struct rules_file file, struct janlishuk_point point, uint32_t refusal)
{
    if (refusal == 4) {
        tally_outside(file, point);
        return 0;
    }
    struct seen seen = look_at(file, point);
    enum rules_from taken = rules_taken(file, point);
    if (seen.western || seen.southern)
        points_on[seen.western && seen.southern ? 2 : seen.southern][seen.covered]++;
    switch (refusal) {
    case 5: tally_bare(file, seen); return 0;
    case 6: tally_missing(file, point, seen, taken); return 0;
    default: tally_read(file, point, seen, taken); break;
    }
    readings[taken]++;
    return ONLY(taken);
}

/* Counts the samples of a path of n steps that an answer was given for, but of an engine row only its own sample. Answers which rectangles
 * they were read from, a bit for each. */
uint32_t tally_samples(struct rules_file file, const struct question *q, uint64_t n)
{
    bool row = q->call == ENGINE_ROW;
    uint32_t all = 0;
    for (uint64_t i = row ? q->a : 0; i <= (row ? q->a : n); i++) {
        enum rules_from taken = rules_taken(file, rules_sample(q->first, q->second, n, i));
        readings[taken]++;
        all |= ONLY(taken);
    }
    return all;
}

/* Counts an answer given with readings from these rectangles, a bit for each. */
void tally_taken(enum call call, uint32_t taken)
{
    for (enum rules_from from = RULES_OWN; from < RULES_NONE; from++)
        answers[call][from] += (taken & ONLY(from)) != 0;
}

/* Prints what was counted of seams. */
void print_seams(void)
{
    printf("\nreadings of points, entries and samples, and answers given with such a reading, by the rectangle taken\n");
    printf("%-14s %6s %6s %6s %6s\n", "taken", "own", "west", "south", "s.-w.");
    print_counts("readings", readings, RULES_NONE);
    for (enum call call = READ; call < CALLS; call++)
        print_counts(call_name(call), answers[call], RULES_NONE);
    printf("\npoints on seams by the rectangles covered, the sum of 1 for own, 2 for west, 4 for south, 8 for south-west\n%-14s", "sum");
    for (int choice = 0; choice < CHOICES; choice++)
        printf(" %6d", choice);
    printf("\n");
    for (int seam = 0; seam < SEAMS; seam++)
        print_counts(seam_names[seam], points_on[seam], CHOICES);
}

/* Says what never came up on seams, a line for each, and answers whether there is any. */
bool seams_lack(void)
{
    bool any = false;
    for (enum rules_from from = RULES_OWN; from < RULES_NONE; from++) {
        any |= lacks(readings[from], "reading", from_name(from), -1);
        for (enum call call = READ; call < CALLS; call++)
            any |= lacks(answers[call][from], call_name(call), from_name(from), -1);
    }
    for (int seam = 0; seam < SEAMS; seam++)
        for (int choice = 0; choice < CHOICES; choice++)
            any |= lacks(points_on[seam][choice], seam_names[seam], "with the rectangles covered of sum", choice);
    return any;
}
