/* Counting what came up, and what should have come up and did not. */
#include <inttypes.h>
#include <stdio.h>

#include "tally.h"

#define REFUSALS 11
#define BASES 21
#define CODES 8

#define KIND_TEXT(name, text) text,
static const char *const kind_texts[KIND_COUNT] = {KINDS(KIND_TEXT)};

/* The refusals that each call can give, by documents 01 and 02, a bit for each; 0 is an answer. */
#define UP_TO(refusal) (ONLY((refusal) + 1) - 1)
static const uint32_t possible[CALLS] = {
    [CHECK] = UP_TO(3), [NAME] = ONLY(0) | ONLY(2), [BASE] = ONLY(0) | ONLY(4), [READ] = UP_TO(6), [SPOT] = UP_TO(6),
    [UPLOAD] = UP_TO(3) | ONLY(10), [ENGINE_POINT] = UP_TO(6), [PROFILE] = UP_TO(7), [VERDICT] = UP_TO(8), [PLAN] = UP_TO(9),
    [ENGINE_ROW] = UP_TO(8),
};

static uint64_t refusals[CALLS][REFUSALS];
static uint64_t kinds[KIND_COUNT];
static uint64_t damaged_files[DAMAGE_KINDS];
static uint64_t damaged[DAMAGE_KINDS][REFUSALS];
static uint64_t codes[CODES];
static uint64_t bases_read[BASES];
static uint64_t bases_found[BASES];

/* Counts a kind where it holds. */
void count_if(bool holds, enum kind kind)
{
    if (holds)
        kinds[kind]++;
}

/* Counts a file that was made. */
void tally_file(const struct file *file)
{
    damaged_files[file->damage]++;
}

/* Counts what kind of file passed a check. */
static void tally_check(const struct file *file, const struct question *q, uint32_t highest)
{
    uint64_t all = 100 * rules_rows(q->base) - 1;
    uint64_t covered = 0;
    for (uint64_t n = 1; n <= all; n++)
        covered += rules_position(file->bytes, n) != 0;
    count_if(highest - 6 > covered, LOOSE);
    count_if(file->length / 1024 > highest, ABOVE);
    count_if(covered == all, ALL_COVERED);
    count_if(covered == 0, NONE_COVERED);
    count_if(file->length == 6 * 1024, SMALLEST);
    count_if(file->length == 4096 * 1024, LARGEST);
}

/* Whether a corner that does not weigh in has no height. */
bool weightless_missing(const struct rules_corner corners[4])
{
    bool any = false;
    for (int k = 0; k < 4; k++)
        any = any || (corners[k].weight == 0 && corners[k].elevation == RULES_NO_HEIGHT);
    return any;
}

/* Counts what kind of reading was given. */
static void tally_reading(const struct file *file, const struct question *q, uint32_t code)
{
    struct rules_corner corners[4];
    bool top = true;
    struct rules_file asked = opened(file, q->base, q->zone);
    rules_corners(asked, q->first, rules_taken(asked, q->first), corners);
    for (int k = 0; k < 4; k++)
        top = top && (corners[k].weight == 0 || corners[k].elevation == RULES_NO_HEIGHT - 1);
    uint64_t word = rules_word(q->base, q->first);
    tally_vote(corners, code);
    count_if(weightless_missing(corners), WEIGHTLESS);
    count_if(top, TOP);
    count_if((word - 1) % 16 == 14, LAST_COLUMN);
    count_if((word - 1) / 16 == 30, LAST_ROW);
    count_if(rules_rectangle(q->base, q->first) >= 2800, ROW_29);
    codes[code]++;
    bases_read[q->base / 4]++;
    tally_taken(q->call, tally_point(asked, q->first, 0));
}

/* Counts what kind of path an answer was given for. */
static void tally_path(const struct question *q, uint64_t n)
{
    uint64_t square = rules_square(q->first, q->second);
    bool east = q->second.easting > q->first.easting;
    bool west = q->second.easting < q->first.easting;
    bool north = q->second.northing > q->first.northing;
    bool south = q->second.northing < q->first.northing;
    count_if(n == 1, STEPS_ONE);
    count_if(n >= 150, STEPS_LONG);
    count_if(n == 200, STEPS_MOST);
    count_if(square == 10000000000, PATH_LONGEST);
    count_if(square == 1, PATH_METRE);
    count_if(north && east, NORTH_EAST);
    count_if(north && west, NORTH_WEST);
    count_if(south && east, SOUTH_EAST);
    count_if(south && west, SOUTH_WEST);
}

/* The least that (N-i) A + i B is above N (T + G) at any sample; 1 where there is none. */
static int64_t least_spare(const struct rules_sight *sight, int64_t a, int64_t b)
{
    int64_t least = 1;
    for (int64_t i = 1; i <= sight->n - 1; i++) {
        int64_t spare = rules_spare(sight, i, a, b);
        if (i == 1 || spare < least)
            least = spare;
    }
    return least;
}

/* Counts what kind of plan was given. */
static void tally_plan(const struct question *q, const struct rules_sight *sight, uint32_t first, uint32_t second)
{
    bool tie = false;
    for (uint32_t other = first + 1; other <= q->a && other <= first + second; other++)
        tie = tie || rules_clear(sight, other, first + second - other);
    count_if(first == 0 && second == 0, PLAN_NEITHER);
    count_if(first > 0 && second == 0, PLAN_FIRST);
    count_if(first == 0 && second > 0, PLAN_SECOND);
    count_if(first > 0 && second > 0, PLAN_BOTH);
    count_if(least_spare(sight, first, second) == 0, PLAN_TOUCHING);
    count_if(tie, PLAN_TIE);
    count_if((first > 0 && first == q->a && q->a < 100) || (second > 0 && second == q->b && q->b < 100), PLAN_LIMITED);
}

/* Counts what kind of answer was given for a path. */
static void tally_given_path(const struct file *file, const struct question *q, const union answer *answer)
{
    struct janlishuk_profile_answer profile = rules_profile(opened(file, q->base, q->zone), q->first, q->second);
    struct rules_sight sight = rules_sight(&profile, rules_square(q->first, q->second));
    tally_path(q, profile.n);
    tally_taken(q->call, tally_samples(opened(file, q->base, q->zone), q, profile.n));
    if (q->call == PLAN)
        tally_plan(q, &sight, answer->plan.first, answer->plan.second);
    if (q->call != VERDICT)
        return;
    int64_t spare = least_spare(&sight, q->a, q->b);
    count_if(answer->verdict.clear == 1, CLEAR);
    count_if(answer->verdict.clear == 0, BLOCKED);
    count_if(spare == 0, TOUCHING);
    count_if(spare < 0 && spare >= -sight.n, HAIR);
}

/* Counts what kind of refusal was met, of a point or a path. */
static void tally_refusal(const struct file *file, const struct question *q, uint32_t refusal, uint32_t place)
{
    bool path = q->call >= PROFILE;
    bool first_on_ground = refusal >= 4 && rules_on_ground(q->base, q->first);
    bool second_on_ground = refusal >= 4 && path && rules_on_ground(q->base, q->second);
    if (refusal == 4) {
        count_if(first_on_ground && q->first.zone != q->zone, OTHER_ZONE);
        count_if(path && first_on_ground && q->first.zone == q->zone, SECOND_END);
    }
    if (refusal == 7) {
        uint64_t square = rules_square(q->first, q->second);
        count_if(square == 0, ONE_POINT);
        count_if(square != 0, TOO_FAR);
    }
    if (refusal == 8)
        count_if(rules_profile(opened(file, q->base, q->zone), q->first, q->second).refusal != 0, MAST_FIRST);
    count_if(refusal == 5 && place > 0, PLACE_5);
    count_if(refusal == 6 && place > 0, PLACE_6);
    count_if(refusal == 9, PLAN_NO_PAIR);
    count_if(refusal == 5 && !path && rules_rectangle(q->base, q->first) == 0, NOWHERE);
    if (place > 0 && second_on_ground)
        count_if(place == rules_steps(rules_square(q->first, q->second)), PLACE_LAST);
    count_if(q->call == ENGINE_ROW && place > q->a, ROW_BEYOND);
    if (refusal >= 4 && !path)
        tally_point(opened(file, q->base, q->zone), q->first, refusal);
}

/* Whether a list of an upload is lent as a null pointer. */
static bool any_null(const struct survey *survey)
{
    bool any = false;
    for (enum list list = 0; list < LISTS; list++)
        any = any || survey->lending[list] == AS_NULL;
    return any;
}

/* Whether a list of an upload is said to have 2^32 entries or more. */
static bool any_vast(const struct survey *survey)
{
    bool any = false;
    for (enum list list = 0; list < LISTS; list++)
        any = any || survey->count[list] >> 32 != 0;
    return any;
}

/* Point k of an upload. */
static struct janlishuk_point point_of(const struct question *q, size_t k)
{
    return (struct janlishuk_point){
        .zone = q->zone,
        .easting = entry_before(&q->survey, LIST_EASTINGS, k),
        .northing = entry_before(&q->survey, LIST_NORTHINGS, k),
    };
}

/* Counts what each point of an upload that is given came to. */
static void tally_points(const struct file *file, const struct question *q)
{
    const struct survey *survey = &q->survey;
    size_t points = survey->count[LIST_EASTINGS];
    size_t read = 0;
    bool refused = false;
    uint32_t taken = 0;
    for (size_t k = 0; k < points; k++) {
        uint32_t refusal = entry_by_rules(survey, LIST_REFUSALS, k);
        taken |= tally_point(opened(file, q->base, q->zone), point_of(q, k), refusal);
        refused = refusal != 0;
        read += refused ? 0 : 1;
        count_if(refusal == 0, POINT_READ);
        count_if(refusal == 4, POINT_4);
        count_if(refusal == 5, POINT_5);
        count_if(refusal == 6, POINT_6);
        count_if(refused && entry_before(survey, LIST_HEIGHTS, k) != 0, POINT_CLEARED);
    }
    tally_taken(UPLOAD, taken);
    count_if(points > 1 && read == points, ALL_READ);
    count_if(points > 1 && read == 0, ALL_REFUSED);
    count_if(points > 1 && read == points - 1 && entry_by_rules(survey, LIST_REFUSALS, 0) != 0, FIRST_REFUSED);
    count_if(points > 1 && read == points - 1 && refused, LAST_REFUSED);
}

/* Counts what kind of upload was given. */
static void tally_upload(const struct file *file, const struct question *q)
{
    const struct survey *survey = &q->survey;
    const size_t *count = survey->count;
    size_t points = count[LIST_EASTINGS];
    count_if(points == 0, UPLOAD_NONE);
    count_if(points == 1, UPLOAD_ONE);
    count_if(points == 255, UPLOAD_255);
    count_if(points == 256, UPLOAD_256);
    count_if(any_null(survey), UPLOAD_NULL);
    count_if(count[LIST_HEIGHTS] == points && count[LIST_CODES] == points && count[LIST_REFUSALS] == points, UPLOAD_EXACT);
    count_if(count[LIST_HEIGHTS] > points, ROOM_HEIGHTS);
    count_if(count[LIST_CODES] > points, ROOM_CODES);
    count_if(count[LIST_REFUSALS] > points, ROOM_REFUSALS);
    count_if(any_vast(survey), ROOM_VAST);
    tally_points(file, q);
}

/* Which of the three lists that an upload writes to are shorter than the points, a bit for each. */
static uint32_t shorter_lists(const struct survey *survey, size_t points)
{
    uint32_t shorter = 0;
    for (enum list list = LIST_HEIGHTS; list < LISTS; list++)
        if (survey->count[list] < points)
            shorter |= ONLY(list);
    return shorter;
}

/* Counts the reason why the lists of an upload do not fit, where there is only one, and whether a list is vast or null. */
static void tally_misfit(const struct survey *survey)
{
    size_t eastings = survey->count[LIST_EASTINGS];
    size_t northings = survey->count[LIST_NORTHINGS];
    size_t points = eastings > northings ? eastings : northings;
    uint32_t shorter = shorter_lists(survey, points);
    bool alike = eastings == northings;
    count_if(alike && points == 257 && shorter == 0, MISFIT_257);
    count_if(northings > eastings && points <= 256 && shorter == 0, MISFIT_MORE);
    count_if(northings < eastings && points <= 256 && shorter == 0, MISFIT_FEWER);
    count_if(alike && points <= 256 && shorter == ONLY(LIST_HEIGHTS), MISFIT_HEIGHTS);
    count_if(alike && points <= 256 && shorter == ONLY(LIST_CODES), MISFIT_CODES);
    count_if(alike && points <= 256 && shorter == ONLY(LIST_REFUSALS), MISFIT_REFUSALS);
    count_if(any_vast(survey), MISFIT_VAST);
    count_if(any_null(survey), MISFIT_NULL);
}

/* Counts what kind of refusal an upload met. */
static void tally_refused_upload(const struct survey *survey, uint32_t refusal)
{
    bool misfit = !rules_lists_fit(lists_of_rules(survey));
    count_if(misfit && refusal == 1, LENGTH_FIRST);
    count_if(misfit && refusal == 2, OPENED_FIRST);
    count_if(misfit && refusal == 3, INDEX_FIRST);
    if (refusal == 10)
        tally_misfit(survey);
}

/* Counts an answer that library and rules agree upon. */
void tally_answer(const struct file *file, const struct question *q, const union answer *answer)
{
    uint32_t refusal = answer->check.refusal;
    refusals[q->call][refusal]++;
    if (q->call != NAME && q->call != BASE && q->call != SPOT)
        damaged[file->damage][refusal]++;
    if (q->call == BASE && refusal == 0)
        bases_found[answer->base.base / 4]++;
    if (q->call == NAME || q->call == BASE)
        return;
    if (q->call == SPOT && !tally_spot(file, q, refusal))
        return;
    if (refusal != 0 && q->call == UPLOAD) {
        tally_refused_upload(&q->survey, refusal);
        return;
    }
    if (refusal != 0) {
        tally_refusal(file, q, refusal, answer->check.place);
        return;
    }
    switch (q->call) {
    case CHECK: tally_check(file, q, answer->check.highest); break;
    case READ:
    case SPOT: tally_reading(file, q, answer->read.code); break;
    case UPLOAD: tally_upload(file, q); break;
    case ENGINE_POINT:
        count_if(answer->engine_point.kind == JANLISHUK_LAND, LAND);
        count_if(answer->engine_point.kind == JANLISHUK_WATER, WATER);
        tally_reading(file, q, answer->engine_point.code);
        break;
    default: tally_given_path(file, q, answer); break;
    }
}

/* Prints a line of counts. */
void print_counts(const char *name, const uint64_t *counts, int count)
{
    printf("%-14s", name);
    for (int k = 0; k < count; k++)
        printf(" %6" PRIu64, counts[k]);
    printf("\n");
}

/* Prints all that was counted. */
void print_tally(void)
{
    printf("\nrefusal             0      1      2      3      4      5      6      7      8      9     10\n");
    for (int call = 0; call < CALLS; call++)
        print_counts(call_name((enum call)call), refusals[call], REFUSALS);
    printf("\n%-46s %6s\n", "kind of answer", "times");
    for (int kind = 0; kind < KIND_COUNT; kind++)
        printf("%-46s %6" PRIu64 "\n", kind_texts[kind], kinds[kind]);
    print_votes();
    print_seams();
    print_spots();
    printf("\nreadings given by surface code 0 to 7, readings given by base 0 to 80, bases found 0 to 80\n");
    print_counts("codes", codes, CODES);
    print_counts("read, 0 to 40", bases_read, 11);
    print_counts("read, 44 to 80", bases_read + 11, 10);
    print_counts("found, to 40", bases_found, 11);
    print_counts("found, to 80", bases_found + 11, 10);
    printf("\nanswers but those of names, bases and spots\n");
    printf("%-34s %6s %8s %8s %8s %8s\n", "damage", "files", "ref. 1", "ref. 2", "ref. 3", "other");
    for (int kind = 0; kind < DAMAGE_KINDS; kind++) {
        const uint64_t *of = damaged[kind];
        uint64_t other = of[0];
        for (int refusal = 4; refusal < REFUSALS; refusal++)
            other += of[refusal];
        printf("%-34s %6" PRIu64, damage_name((enum damage)kind), damaged_files[kind]);
        printf(" %8" PRIu64 " %8" PRIu64 " %8" PRIu64 " %8" PRIu64 "\n", of[1], of[2], of[3], other);
    }
}

/* Prints that something never came up where its count is 0, and answers whether it did not. A number below 0 is not printed. */
bool lacks(uint64_t count, const char *what, const char *which, int number)
{
    if (count > 0)
        return false;
    printf("FAIL: never came up: %s %s", what, which);
    if (number >= 0)
        printf(" %d", number);
    printf("\n");
    return true;
}

/* Says what can come up and never did, a line for each, and answers whether there is any. */
bool tally_lacks(void)
{
    bool any = false;
    for (int call = 0; call < CALLS; call++)
        for (int refusal = 0; refusal < REFUSALS; refusal++)
            if (possible[call] & ONLY(refusal))
                any |= lacks(refusals[call][refusal], call_name((enum call)call), "refusal", refusal);
    for (int kind = 0; kind < KIND_COUNT; kind++)
        any |= lacks(kinds[kind], "kind of answer,", kind_texts[kind], -1);
    any |= votes_lack();
    any |= seams_lack();
    any |= spots_lack();
    for (int code = 0; code < CODES; code++)
        any |= lacks(codes[code], "reading of", "code", code);
    for (int base = 0; base < BASES; base++) {
        any |= lacks(bases_read[base], "reading with", "base", 4 * base);
        any |= lacks(bases_found[base], "finding of", "base", 4 * base);
    }
    for (enum damage kind = 0; kind < DAMAGE_KINDS; kind++)
        any |= lacks(damaged[kind][damage_refusal(kind)], damage_name(kind), "with refusal", (int)damage_refusal(kind));
    return any;
}
