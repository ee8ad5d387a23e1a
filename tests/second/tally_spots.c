/* Counting what came up at spots: which of a point's entries were looked at and which were not, what was wrong with these and with the rest
 * of the index, and what a reading of the same point gives. An entry is called bad where it is neither 0 nor 7 to M, and M where it is
 * outside its range. */
#include <stdio.h>

#include "tally.h"

/* The refusals that a spot and a reading can be given, 0 for none. */
#define REFUSALS 7

/* What is counted of spots by one of the four rectangles: refused with 3 for its entry; read from it, with a bad entry in a later one that
 * the point may be read from; refused with 5 in a file that passes, where it is rectangle 0; and read from it, where a reading is refused
 * with 3. */
enum row { BAD_HERE, BAD_LATER, ZERO_HERE, READ_HERE, ROWS };

/* What can be wrong with an index whose M is within its range: an entry below 7, an entry above M, a number in two entries, a number that
 * the rectangle which a point is read from has in common with another, and a number where no rectangle is. */
enum fault { FAULT_LOW, FAULT_HIGH, FAULT_TWICE, FAULT_SHARED, FAULT_STRAY };

static const char *const row_names[ROWS] = {"3 for entry", "later one bad", "rectangle 0", "reading gets 3"};

static uint64_t against[REFUSALS][REFUSALS];
static uint64_t by_rectangle[ROWS][RULES_NONE];
static uint64_t by_damage[DAMAGE_KINDS][REFUSALS];
static uint64_t asked_blind[REFUSALS];

/* A point on the ground as a spot is counted: where it lies, the rectangle whose entry is the first that is not 0, and that entry; and of
 * the four rectangles about its south-western corner that are there, a bit for each, which it may be read from, which have an entry of 7 to
 * M and which have a bad one. */
struct looked {
    struct rules_place place;
    enum rules_from met;
    uint64_t entry;
    uint32_t readable;
    uint32_t good;
    uint32_t bad;
};

/* What there is to count of a spot on the ground. */
static struct looked look_at(struct rules_file file, struct janlishuk_point point)
{
    struct looked looked = {.place = rules_place(file.base, point), .met = rules_taken(file, point), .entry = rules_entry_met(file, point)};
    struct rules_place corner = {.ix = looked.place.ix, .iy = looked.place.iy};
    for (enum rules_from from = RULES_OWN; from < RULES_NONE; from++) {
        if (!rules_allowed(corner, from))
            continue;
        uint64_t entry = rules_record(file, rules_seat(corner, from).rectangle);
        bool holds = rules_entry_holds(file, entry);
        looked.readable |= rules_allowed(looked.place, from) ? ONLY(from) : 0;
        looked.good |= holds && entry != 0 ? ONLY(from) : 0;
        looked.bad |= holds ? 0 : ONLY(from);
    }
    return looked;
}

/* The rectangles that a point may be read from and that come after the one whose entry is the first that is not 0, a bit for each. */
static uint32_t later(struct looked looked)
{
    return looked.readable & ~(ONLY(looked.met + 1) - 1);
}

/* Counts a spot that is refused with 1 or 2, and what it might have been refused with else. */
static void tally_early(const struct file *file, struct rules_file asked, uint32_t refusal)
{
    bool bad = file->kept >= 6 * 1024 && !rules_highest_holds(asked);
    count_if(refusal == 1 && rules_name(asked.base, asked.zone).refusal == 2, SPOT_LENGTH_OPENED);
    count_if(bad && refusal == 1, SPOT_LENGTH_FIRST);
    count_if(bad && refusal == 2, SPOT_OPENED_FIRST);
}

/* Counts a spot that is refused with 3 for M, and what it might have been given else. */
static void tally_bad_highest(struct rules_file file, struct janlishuk_point point)
{
    uint64_t highest = rules_position(file.bytes, 3072);
    uint64_t records = file.length / 1024;
    bool on_ground = rules_on_ground(file.base, point);
    bool here = on_ground && point.zone == file.zone;
    uint64_t entry = here ? rules_entry_met(file, point) : 0;
    count_if(highest < 6, SPOT_M_LOW);
    count_if(highest == 5, SPOT_M_5);
    count_if(highest > records, SPOT_M_HIGH);
    count_if(highest == records + 1, SPOT_M_ONE_ABOVE);
    count_if(!on_ground, SPOT_M_GROUND);
    count_if(on_ground && !here, SPOT_M_ZONE);
    count_if(here && highest < 6 && entry == 0, SPOT_M_BARE);
    count_if(highest > records && entry >= 7 && entry <= records, SPOT_M_RECORD);
    count_if(entry > records && entry <= highest, SPOT_M_BEYOND);
}

/* Counts a spot that is refused with 3 for the first of its entries that is not 0, and what it might have been given else. */
static void tally_bad_entry(struct rules_file file, struct janlishuk_point point)
{
    struct looked looked = look_at(file, point);
    uint64_t highest = rules_position(file.bytes, 3072);
    uint64_t records = file.length / 1024;
    bool in_file = looked.entry > highest && looked.entry <= records;
    uint32_t next = later(looked) & looked.good;
    bool own = looked.met == RULES_OWN;
    by_rectangle[BAD_HERE][looked.met]++;
    count_if(looked.entry == 1, SPOT_ENTRY_1);
    count_if(looked.entry == 6, SPOT_ENTRY_6);
    count_if(looked.entry == highest + 1, SPOT_ENTRY_ONE_ABOVE);
    count_if(in_file, SPOT_ENTRY_IN_FILE);
    count_if(looked.entry > records, SPOT_ENTRY_BEYOND);
    count_if(in_file && rules_read_from(file, point, looked.met).refusal == 6, SPOT_ENTRY_MISSING);
    count_if(looked.good == 0 && looked.bad == ONLY(looked.met), SPOT_ENTRY_ALONE);
    count_if(own && (next & ONLY(RULES_WEST)) != 0, SPOT_OWN_WEST);
    count_if(own && (next & ONLY(RULES_SOUTH)) != 0, SPOT_OWN_SOUTH);
    count_if(!own && next != 0, SPOT_BESIDE_NEXT);
}

/* Counts a spot that is refused with 5: by the bad entries that are not looked at, and by where rectangle 0 lies if the file passes. */
static void tally_bare(struct rules_file file, struct janlishuk_point point, bool passes)
{
    struct looked looked = look_at(file, point);
    struct rules_place place = looked.place;
    uint64_t own = 100 * place.iy + place.ix;
    bool western = place.wx == 0 && place.fx == 0;
    count_if(rules_position(file.bytes, 3072) == 6, SPOT_M_6);
    count_if(place.wx == 0 && place.fx > 0 && (looked.bad & ONLY(RULES_WEST)) != 0, SPOT_EAST_OF_SEAM);
    count_if(place.wy == 0 && place.fy > 0 && (looked.bad & ONLY(RULES_SOUTH)) != 0, SPOT_NORTH_OF_SEAM);
    count_if(western && place.ix == 0 && own > 1 && !rules_entry_holds(file, rules_record(file, own - 1)), SPOT_COLUMN_0);
    count_if(own == 0 && !rules_entry_holds(file, rules_record(file, 1)), SPOT_RECTANGLE_0);
    for (enum rules_from from = RULES_OWN; from < RULES_NONE; from++)
        by_rectangle[ZERO_HERE][from] += passes && rules_allowed(place, from) && rules_seat(place, from).rectangle == 0;
}

/* Counts a spot that was read: by its entry, by the bad ones that are not looked at, and whether a weightless corner has no height. */
static void tally_read(struct rules_file file, struct janlishuk_point point)
{
    struct looked looked = look_at(file, point);
    struct rules_corner corners[4];
    rules_corners(file, point, looked.met, corners);
    count_if(looked.entry == 7, SPOT_READ_7);
    count_if(looked.entry == rules_position(file.bytes, 3072), SPOT_READ_M);
    count_if(rules_position(file.bytes, 3072) == file.length / 1024, SPOT_READ_COUNT);
    count_if((looked.bad & ~looked.readable) != 0, SPOT_OFF_SEAM);
    count_if(weightless_missing(corners), SPOT_WEIGHTLESS);
    by_rectangle[BAD_LATER][looked.met] += (later(looked) & looked.bad) != 0;
}

/* What is wrong with the index of a file whose M is within its range, a bit for each fault, where a point is read from this rectangle. */
static uint32_t faults_of(struct rules_file file, uint64_t rectangle)
{
    bool met[4097] = {false};
    uint32_t faults = 0;
    uint64_t all = 100 * rules_rows(file.base);
    for (uint64_t n = 1; n <= 3071; n++) {
        uint64_t entry = rules_position(file.bytes, n);
        if (entry == 0)
            continue;
        if (n >= all)
            faults |= ONLY(FAULT_STRAY);
        else if (!rules_entry_holds(file, entry))
            faults |= entry < 7 ? ONLY(FAULT_LOW) : ONLY(FAULT_HIGH);
        else if (n != rectangle && entry == rules_record(file, rectangle))
            faults |= ONLY(FAULT_SHARED);
        else if (met[entry])
            faults |= ONLY(FAULT_TWICE);
        else
            met[entry] = true;
    }
    return faults;
}

/* Counts a spot that was read where a reading is refused with 3, by all that is wrong with the index. */
static void tally_read_only_here(struct rules_file file, struct janlishuk_point point)
{
    enum rules_from taken = rules_taken(file, point);
    uint32_t faults = faults_of(file, rules_seat(rules_place(file.base, point), taken).rectangle);
    by_rectangle[READ_HERE][taken]++;
    count_if((faults & ONLY(FAULT_SHARED)) != 0, SPOT_SHARED);
    count_if(faults == ONLY(FAULT_LOW), SPOT_ONLY_LOW);
    count_if(faults == ONLY(FAULT_HIGH), SPOT_ONLY_HIGH);
    count_if(faults == ONLY(FAULT_TWICE), SPOT_ONLY_TWICE);
    count_if(faults == ONLY(FAULT_STRAY), SPOT_ONLY_STRAY);
}

/* Counts a spot and the refusal that it was given, 0 where it was read. Answers whether a reading of the same point is given the same
 * refusal. */
bool tally_spot(const struct file *file, const struct question *q, uint32_t refusal)
{
    struct rules_file asked = opened(file, q->base, q->zone);
    struct janlishuk_point point = q->first;
    uint32_t read = rules_read(asked, point).refusal;
    against[refusal][read]++;
    by_damage[file->damage][refusal]++;
    if (refusal == 1 || refusal == 2)
        tally_early(file, asked, refusal);
    if (refusal == 3 && !rules_highest_holds(asked))
        tally_bad_highest(asked, point);
    else if (refusal == 3)
        tally_bad_entry(asked, point);
    if (refusal == 4)
        count_if(rules_on_ground(q->base, point) && !rules_entry_holds(asked, rules_entry_met(asked, point)), SPOT_ZONE_FIRST);
    if (refusal == 5)
        tally_bare(asked, point, read != 3);
    if (refusal == 0)
        tally_read(asked, point);
    if (refusal == 0 && read == 3)
        tally_read_only_here(asked, point);
    return refusal == read;
}

/* Counts a spot that was asked again of a copy in which all else is drawn. */
void tally_blind(uint32_t refusal)
{
    asked_blind[refusal]++;
}

/* Prints a line of counts by refusal after the name of a damage, which may be long. */
static void print_damage(const char *name, const uint64_t *counts)
{
    char padded[40];
    snprintf(padded, sizeof padded, "%-34s", name);
    print_counts(padded, counts, REFUSALS);
}

/* Prints what was counted of spots. */
void print_spots(void)
{
    static const uint64_t numbers[REFUSALS] = {0, 1, 2, 3, 4, 5, 6};
    char name[24];
    printf("\nspots, a line for each refusal, by the refusal of a reading of the same point\n");
    print_counts("reading", numbers, REFUSALS);
    for (int refusal = 0; refusal < REFUSALS; refusal++) {
        snprintf(name, sizeof name, "spot %d", refusal);
        print_counts(name, against[refusal], REFUSALS);
    }
    printf("\nspots asked again of a copy in which all that they do not look at is drawn, by refusal\n");
    print_counts("refusal", numbers, REFUSALS);
    print_counts("asked again", asked_blind, REFUSALS);
    printf("\nspots by the rectangle that has the first entry not 0, or that is rectangle 0\n");
    printf("%-14s %6s %6s %6s %6s\n", "rectangle", "own", "west", "south", "s.-w.");
    for (int row = 0; row < ROWS; row++)
        print_counts(row_names[row], by_rectangle[row], RULES_NONE);
    printf("\nspots by damage and refusal\n");
    print_damage("damage", numbers);
    for (enum damage kind = 0; kind < DAMAGE_KINDS; kind++)
        print_damage(damage_name(kind), by_damage[kind]);
}

/* Says what never came up at spots, a line for each, and answers whether there is any. A spot is answered as a reading is, or the reading
 * is refused with 3 and the spot is read or refused with more than 3. No rectangle comes after the south-west one. */
bool spots_lack(void)
{
    char what[32];
    bool any = false;
    for (int refusal = 0; refusal < REFUSALS; refusal++) {
        any |= lacks(against[refusal][refusal], "spot answered as a reading,", "refusal", refusal);
        any |= lacks(asked_blind[refusal], "spot asked again,", "refusal", refusal);
        if (refusal == 0 || refusal > 3)
            any |= lacks(against[refusal][3], "spot where a reading is refused with 3,", "refusal", refusal);
    }
    for (int row = 0; row < ROWS; row++) {
        snprintf(what, sizeof what, "spot, %s,", row_names[row]);
        for (enum rules_from from = RULES_OWN; from < RULES_NONE; from++)
            if (row != BAD_LATER || from != RULES_SOUTH_WEST)
                any |= lacks(by_rectangle[row][from], what, from_name(from), -1);
    }
    return any;
}
