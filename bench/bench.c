/* Asks the library and plain C the same questions about made files.
 *   bench same                     compares all answers of the two over many questions, also about damaged files; exit 1 on a difference
 *   bench CALL SIDE FILE TIMES     makes the file, asks the call TIMES times, and prints its answer
 * CALL is check, read, read_seam, read_line, spot, spot_seam, upload, upload_line, profile, profile_line, verdict, plan or plan_none; SIDE is library,
 * plain or every_pair; FILE is hundred, all, most, one, two or four. */
#include "plain.h"

#include <stdbool.h>
#include <stdio.h>
#include <stdlib.h>
#include <string.h>

/* The files are of base 40 and zone 17, whose ground begins at this easting and northing and has these rows and columns of rectangles. */
#define BASE 40u
#define ZONE 17u
#define WEST 125000u
#define SOUTH 4433000u
#define ROWS 28u
#define COLUMNS 100u

/* Bytes of a record. */
#define RECORD 1024u

/* How many units north of the ground's corner the floor of the valley lies. */
#define VALLEY 460u

/* The hundred records of the smaller file cover ten columns and ten rows of rectangles from these on. */
#define BAND_COLUMN 40u
#define BAND_ROW 10u
#define BAND 10u

/* The files: with the hundred records of the band, with every rectangle, and with every rectangle and as many records as a file may have; and with the
 * hundred records on ground where the four corners around a point have one code, two or four. */
enum kind { HUNDRED, ALL, MOST, ONE, TWO, FOUR };

/* The calls of one side. */
struct side {
    const char *name;
    struct janlishuk_check_answer (*check)(const uint8_t *, size_t, uint32_t, uint32_t);
    struct janlishuk_read_answer (*read)(const uint8_t *, size_t, uint32_t, uint32_t, struct janlishuk_point);
    struct janlishuk_read_answer (*spot)(const uint8_t *, size_t, uint32_t, uint32_t, struct janlishuk_point);
    struct janlishuk_upload_answer (*upload)(const uint8_t *, size_t, uint32_t, uint32_t, const uint32_t *, size_t, const uint32_t *, size_t,
                                             uint32_t *, size_t, uint8_t *, size_t, uint8_t *, size_t);
    struct janlishuk_profile_answer (*profile)(const uint8_t *, size_t, uint32_t, uint32_t, struct janlishuk_point, struct janlishuk_point);
    struct janlishuk_verdict_answer (*verdict)(const uint8_t *, size_t, uint32_t, uint32_t, struct janlishuk_point, struct janlishuk_point,
                                               uint32_t, uint32_t);
    struct janlishuk_plan_answer (*plan)(const uint8_t *, size_t, uint32_t, uint32_t, struct janlishuk_point, struct janlishuk_point,
                                         uint32_t, uint32_t);
};

static const struct side sides[] = {
    {"library", janlishuk_check, janlishuk_read, janlishuk_spot, janlishuk_upload, janlishuk_profile, janlishuk_verdict, janlishuk_plan},
    {"plain", plain_check, plain_read, plain_spot, plain_upload, plain_profile, plain_verdict, plain_plan},
    {"every_pair", plain_check, plain_read, plain_spot, plain_upload, plain_profile, plain_verdict, plain_plan_every_pair},
};

/* Room of each list: some entries more than a survey may have points. */
#define LIST 260u

/* The points of a survey, and how many entries of each of its five lists are lent. */
struct survey {
    uint32_t eastings[LIST];
    uint32_t northings[LIST];
    size_t eastings_count;
    size_t northings_count;
    size_t heights_room;
    size_t codes_room;
    size_t refusals_room;
};

/* The lists that a survey fills. */
struct filled {
    uint32_t heights[LIST];
    uint8_t codes[LIST];
    uint8_t refusals[LIST];
};

/* A question: what a call is given. The masts are limits to a plan. */
struct question {
    const uint8_t *file;
    size_t length;
    uint32_t base;
    uint32_t zone;
    struct janlishuk_point first;
    struct janlishuk_point second;
    uint32_t a;
    uint32_t b;
    struct survey survey;
};

/* Room for the longest file that is not refused. */
static _Alignas(4096) uint8_t file[4096 * RECORD];

/* A triangle wave of the given period from 0 up to half the period and down again. */
static uint32_t wave(uint32_t at, uint32_t period)
{
    uint32_t phase = at % period;
    return phase < period - phase ? phase : period - phase;
}

/* The elevation at a word, by its units east and north of the ground's corner: hills in a valley, across which there may be a ridge. */
static uint32_t elevation(uint32_t x, uint32_t y, bool ridge)
{
    uint32_t off = y < VALLEY ? VALLEY - y : y - VALLEY;
    uint32_t valley = off < 100 ? off * off / 50 : 200;
    return 100 + valley + wave(x, 34) + wave(y, 46) / 2 + (ridge && off < 2 ? 600 : 0);
}

/* The surface code at a word: in patches, or such that the four corners around a point have one code, two or four. Two lie row by row in every other
 * column of units, and crosswise in those between. */
static uint32_t surface(enum kind kind, uint32_t x, uint32_t y)
{
    switch (kind) {
    case ONE:
        return 5;
    case TWO:
        return 1 + (x / 2 + y) % 2 * 4;
    case FOUR:
        return 1 + x % 2 + y % 2 * 2;
    default:
        return (x / 6 + 3 * (y / 9)) % 8;
    }
}

/* Puts a number at a place of the file, high byte first. */
static void put(size_t at, uint32_t number)
{
    file[at] = (uint8_t)(number >> 8);
    file[at + 1] = (uint8_t)number;
}

/* Puts a number into position n of the index. */
static void put_position(uint32_t n, uint32_t number)
{
    put(2 * (n - 1), number);
}

/* Writes the words of a rectangle into a record. */
static void put_record(enum kind kind, uint32_t record, uint32_t column, uint32_t row, bool ridge)
{
    size_t at = RECORD * (record - 1);
    for (uint32_t y = 31 * row; y < 31 * row + 32; y++) {
        for (uint32_t x = 15 * column; x < 15 * column + 16; x++, at += 2)
            put(at, 8192 * surface(kind, x, y) + elevation(x, y, ridge));
    }
}

/* Makes a file of the band alone or of every rectangle but 0, whose records are in no order, and answers its length. */
static size_t make_file(enum kind kind, bool ridge)
{
    bool band = kind != ALL && kind != MOST;
    uint32_t needed = band ? BAND * BAND : COLUMNS * ROWS - 1;
    uint32_t records = kind == MOST ? 4096 - 6 : needed;
    uint32_t covered = 0;
    memset(file, 0, 6 * RECORD);
    for (uint32_t n = 1; n < COLUMNS * ROWS; n++) {
        uint32_t column = n % COLUMNS, row = n / COLUMNS;
        if (band && (column - BAND_COLUMN >= BAND || row - BAND_ROW >= BAND))
            continue;
        uint32_t record = 7 + 1009 * covered % records;
        covered++;
        put_position(n, record);
        put_record(kind, record, column, row, ridge);
    }
    put_position(3072, 6 + records);
    return RECORD * (6 + records);
}

/* A survey of so many points, all of them on the band, with just the room that it needs. */
static void spread(struct survey *survey, size_t count)
{
    for (size_t k = 0; k < LIST; k++) {
        survey->eastings[k] = WEST + 7500 * BAND_COLUMN + (uint32_t)(29311 * k % 75000);
        survey->northings[k] = SOUTH + 15500 * BAND_ROW + (uint32_t)(61987 * k % 155000);
    }
    survey->eastings_count = survey->northings_count = survey->heights_room = survey->codes_room = survey->refusals_room = count;
}

/* The question that is measured: a path of 200 steps with masts or mast limits of 100, and a survey of the most points. */
static struct question long_path(size_t length)
{
    struct janlishuk_point first = {ZONE, WEST + 307123, SOUTH + 190377};
    struct janlishuk_point second = {ZONE, first.easting + 60001, first.northing + 79999};
    struct question q = {file, length, BASE, ZONE, first, second, 100, 100, {{0}, {0}, 0, 0, 0, 0, 0}};
    spread(&q.survey, JANLISHUK_MOST_POINTS);
    return q;
}

/* Moves a question onto grid lines: its points onto lines from south to north and from west to east by turns, its path onto one of the former. */
static void move_onto_lines(struct question *q)
{
    q->first.easting -= (q->first.easting - WEST) % 500;
    q->second = (struct janlishuk_point){ZONE, q->first.easting, q->first.northing + 99999};
    for (size_t k = 0; k < LIST; k++) {
        uint32_t *along = k % 2 == 0 ? &q->survey.eastings[k] : &q->survey.northings[k];
        *along -= (*along - (k % 2 == 0 ? WEST : SOUTH)) % 500;
    }
}

/* Asks for a check. In every ask_ function the answer's alignment fixes that of the stack, on which the cost of clearing memory depends. */
static void ask_check(const struct side *side, const struct question *q, unsigned long times)
{
    _Alignas(4096) struct janlishuk_check_answer answer = {0};
    while (times-- > 0)
        answer = side->check(q->file, q->length, q->base, q->zone);
    printf("refusal %u highest %u\n", answer.refusal, answer.highest);
}

/* Asks for a reading. */
static void ask_read(const struct side *side, const struct question *q, unsigned long times)
{
    _Alignas(4096) struct janlishuk_read_answer answer = {0};
    while (times-- > 0)
        answer = side->read(q->file, q->length, q->base, q->zone, q->first);
    printf("refusal %u height %u code %u\n", answer.refusal, answer.height, answer.code);
}

/* Asks for a spot. */
static void ask_spot(const struct side *side, const struct question *q, unsigned long times)
{
    _Alignas(4096) struct janlishuk_read_answer answer = {0};
    while (times-- > 0)
        answer = side->spot(q->file, q->length, q->base, q->zone, q->first);
    printf("refusal %u height %u code %u\n", answer.refusal, answer.height, answer.code);
}

/* The upload of a survey by one side, into these lists. */
static struct janlishuk_upload_answer upload(const struct side *side, const struct question *q, struct filled *lists)
{
    const struct survey *s = &q->survey;
    return side->upload(q->file, q->length, q->base, q->zone, s->eastings, s->eastings_count, s->northings, s->northings_count,
                        lists->heights, s->heights_room, lists->codes, s->codes_room, lists->refusals, s->refusals_room);
}

/* Asks for an upload. */
static void ask_upload(const struct side *side, const struct question *q, unsigned long times)
{
    _Alignas(4096) struct janlishuk_upload_answer answer = {0};
    static struct filled lists;
    while (times-- > 0)
        answer = upload(side, q, &lists);
    uint64_t heights = 0, codes = 0, refusals = 0;
    for (size_t k = 0; k < q->survey.eastings_count; k++) {
        heights += lists.heights[k];
        codes += lists.codes[k];
        refusals += lists.refusals[k];
    }
    printf("refusal %u heights %llu codes %llu refusals %llu\n", answer.refusal, (unsigned long long)heights, (unsigned long long)codes,
           (unsigned long long)refusals);
}

/* Asks for a profile. */
static void ask_profile(const struct side *side, const struct question *q, unsigned long times)
{
    _Alignas(4096) struct janlishuk_profile_answer answer = {0};
    while (times-- > 0)
        answer = side->profile(q->file, q->length, q->base, q->zone, q->first, q->second);
    uint64_t heights = 0, codes = 0;
    for (int i = 0; i < JANLISHUK_ROOM; i++) {
        heights += answer.heights[i];
        codes += answer.codes[i];
    }
    printf("refusal %u n %u heights %llu codes %llu\n", answer.refusal, answer.n, (unsigned long long)heights, (unsigned long long)codes);
}

/* Asks for a verdict. */
static void ask_verdict(const struct side *side, const struct question *q, unsigned long times)
{
    _Alignas(4096) struct janlishuk_verdict_answer answer = {0};
    while (times-- > 0)
        answer = side->verdict(q->file, q->length, q->base, q->zone, q->first, q->second, q->a, q->b);
    printf("refusal %u clear %u\n", answer.refusal, answer.clear);
}

/* Asks for a plan. */
static void ask_plan(const struct side *side, const struct question *q, unsigned long times)
{
    _Alignas(4096) struct janlishuk_plan_answer answer = {0};
    while (times-- > 0)
        answer = side->plan(q->file, q->length, q->base, q->zone, q->first, q->second, q->a, q->b);
    printf("refusal %u first %u second %u\n", answer.refusal, answer.first, answer.second);
}

/* All seven answers to a question, with the lists that the upload fills. */
struct answers {
    struct janlishuk_check_answer check;
    struct janlishuk_read_answer read;
    struct janlishuk_read_answer spot;
    struct janlishuk_upload_answer upload;
    struct filled lists;
    struct janlishuk_profile_answer profile;
    struct janlishuk_verdict_answer verdict;
    struct janlishuk_plan_answer plan;
};

/* Asks one side all seven calls. Before the upload its lists hold the same on each side. */
static void ask_all(const struct side *side, const struct question *q, struct answers *answers)
{
    answers->check = side->check(q->file, q->length, q->base, q->zone);
    answers->read = side->read(q->file, q->length, q->base, q->zone, q->first);
    answers->spot = side->spot(q->file, q->length, q->base, q->zone, q->first);
    memset(&answers->lists, 0xA5, sizeof answers->lists);
    answers->upload = upload(side, q, &answers->lists);
    answers->profile = side->profile(q->file, q->length, q->base, q->zone, q->first, q->second);
    answers->verdict = side->verdict(q->file, q->length, q->base, q->zone, q->first, q->second, q->a, q->b);
    answers->plan = side->plan(q->file, q->length, q->base, q->zone, q->first, q->second, q->a, q->b);
}

/* Whether two profiles are equal in every field. */
static bool equal_profiles(const struct janlishuk_profile_answer *p, const struct janlishuk_profile_answer *q)
{
    return p->refusal == q->refusal && p->place == q->place && p->n == q->n && memcmp(p->heights, q->heights, sizeof p->heights) == 0 &&
           memcmp(p->codes, q->codes, sizeof p->codes) == 0;
}

/* Whether the lists of two uploads are equal in every entry. */
static bool equal_lists(const struct filled *p, const struct filled *q)
{
    return memcmp(p->heights, q->heights, sizeof p->heights) == 0 && memcmp(p->codes, q->codes, sizeof p->codes) == 0 &&
           memcmp(p->refusals, q->refusals, sizeof p->refusals) == 0;
}

/* Whether all seven answers are equal in every field; those other than the profile have no gaps between their fields. */
static bool equal_answers(const struct answers *p, const struct answers *q)
{
    return memcmp(&p->check, &q->check, sizeof p->check) == 0 && memcmp(&p->read, &q->read, sizeof p->read) == 0 &&
           memcmp(&p->spot, &q->spot, sizeof p->spot) == 0 && memcmp(&p->upload, &q->upload, sizeof p->upload) == 0 &&
           equal_lists(&p->lists, &q->lists) && equal_profiles(&p->profile, &q->profile) &&
           memcmp(&p->verdict, &q->verdict, sizeof p->verdict) == 0 && memcmp(&p->plan, &q->plan, sizeof p->plan) == 0;
}

/* How many questions were compared, by the refusal of their plan, by that of their spot, and by whether their upload was given, refused for its lists,
 * or refused for the file; how many spots were read where the reading was refused; and how many points were uploaded, by their own refusal. */
static unsigned long compared[10];
static unsigned long spots[7];
static unsigned long spots_alone;
static unsigned long uploads[3];
static unsigned long points[7];

/* Compares the answers of all sides to a question, ends the program where they differ, and else answers the plan. */
static struct janlishuk_plan_answer compare(const struct question *q)
{
    struct answers library, other;
    ask_all(&sides[0], q, &library);
    for (int k = 1; k < 3; k++) {
        ask_all(&sides[k], q, &other);
        if (equal_answers(&library, &other))
            continue;
        printf("library and %s differ: length %zu base %u zone %u, zone %u %u %u to zone %u %u %u, masts %u %u\n", sides[k].name, q->length,
               q->base, q->zone, q->first.zone, q->first.easting, q->first.northing, q->second.zone, q->second.easting, q->second.northing,
               q->a, q->b);
        exit(1);
    }
    compared[library.plan.refusal]++;
    spots[library.spot.refusal]++;
    spots_alone += library.spot.refusal == 0 && library.read.refusal == 3;
    uploads[library.upload.refusal == 0 ? 0 : library.upload.refusal == 10 ? 1 : 2]++;
    for (size_t k = 0; library.upload.refusal == 0 && k < q->survey.eastings_count; k++)
        points[library.lists.refusals[k]]++;
    return library.plan;
}

/* The next of a fixed sequence of numbers below a bound. */
static uint32_t some(uint32_t bound)
{
    static uint32_t state = 2463534242u;
    state ^= state << 13;
    state ^= state >> 17;
    state ^= state << 5;
    return state % bound;
}

/* A point on or near the band, or somewhere on or near the ground; often on a grid line, seldom of another zone. */
static struct janlishuk_point some_point(uint32_t base)
{
    uint32_t south = 500 * 31 * (7 * base + (1000 + (246 + base) * base) / 2000);
    struct janlishuk_point point = {some(50) == 0 ? ZONE + 1 : ZONE, WEST - 2000, south - (south < 2000 ? 0 : 2000)};
    if (some(8) == 0) {
        point.easting += some(754000);
        point.northing += some(454000);
    } else {
        point.easting += 7500 * BAND_COLUMN + some(79000);
        point.northing += 15500 * BAND_ROW + some(159000);
    }
    point.easting -= some(4) == 0 ? point.easting % 500 : 0;
    point.northing -= some(4) == 0 ? point.northing % 500 : 0;
    return point;
}

/* Some points of a survey, in lists of which in one survey of three one is shorter or longer than the others. */
static void some_survey(struct survey *survey, uint32_t base)
{
    static const size_t counts[] = {0, 1, 2, 3, 5, 8, 255, 256, 257};
    size_t count = counts[some(40) == 0 ? 6 + some(3) : some(6)];
    for (size_t k = 0; k < count; k++) {
        struct janlishuk_point point = some_point(base);
        survey->eastings[k] = point.easting;
        survey->northings[k] = point.northing;
    }
    size_t *lengths[] = {&survey->eastings_count, &survey->northings_count, &survey->heights_room, &survey->codes_room, &survey->refusals_room};
    for (size_t k = 0; k < 5; k++)
        *lengths[k] = count + (k > 1 ? some(3) : 0);
    if (some(3) == 0)
        *lengths[some(5)] = count == 0 || some(4) == 0 ? count + 1 : count - 1;
}

/* A question about the file: of its base or another, a path of some length and direction, masts up to and above 100, and a survey. */
static struct question some_question(size_t length)
{
    static const uint32_t reaches[] = {0, 300, 500, 1000, 1500, 2000, 20000, 60000, 80000, 100000};
    struct question q = {file, length, some(4) == 0 ? 4 * some(21) : BASE, ZONE, {0}, {0}, some(105), some(105), {{0}, {0}, 0, 0, 0, 0, 0}};
    some_survey(&q.survey, q.base);
    uint32_t reach = reaches[some(10)];
    q.first = some_point(q.base);
    q.second = q.first;
    q.second.zone = some(50) == 0 ? ZONE + 1 : ZONE;
    if (some(3) == 0) {
        q.second.easting += reach / 5 * 3;
        q.second.northing -= reach / 5 * 4;
    } else {
        q.second.easting += some(2 * reach + 1) - reach;
        q.second.northing += some(2 * reach + 1) - reach;
    }
    return q;
}

/* Gives every word of the file's records some other elevation, seldom none. */
static void roughen(size_t length)
{
    for (size_t at = 6 * RECORD; at < length; at += 2)
        put(at, 8192 * some(8) + (some(2000) == 0 ? 8191 : some(60)));
}

/* Damages the file's index: some position, often at an end of the covered ones, gets a number, often one at an end of those allowed. */
static void damage_index(uint32_t highest)
{
    const uint32_t places[] = {1, 100 * ROWS - 1, 100 * ROWS, 3071, 3072, 1 + some(3072), 1 + some(3072), 100 * BAND_ROW + BAND_COLUMN};
    const uint32_t numbers[] = {0, 1, 6, 7, highest, highest + 1, some(65536), 7 + some(100)};
    put_position(places[some(8)], numbers[some(8)]);
}

/* Damages a file or what is said of it, or takes heights or covered rectangles away. */
static void damage(struct question *q)
{
    const size_t lengths[] = {0, 5 * RECORD, q->length - 1, q->length + 1, q->length - RECORD, 4096 * RECORD, 4097 * RECORD, 6 * RECORD};
    uint32_t highest = (uint32_t)(q->length / RECORD);
    switch (some(10)) {
    case 0:
        q->length = lengths[some(8)];
        break;
    case 1:
        q->base = some(90);
        break;
    case 2:
        q->zone = some(63);
        break;
    case 3:
        for (uint32_t k = some(9); k > 0; k--)
            put_position(100 * (BAND_ROW + some(BAND)) + BAND_COLUMN + some(BAND), 0);
        break;
    case 4:
        for (uint32_t k = some(400); k > 0; k--)
            put(6 * RECORD + 2 * some(512 * (highest - 6)), 8192 * some(8) + 8191);
        break;
    case 5:
        memset(file, 0, 6 * RECORD);
        put_position(3072, 5 + some(3));
        break;
    default:
        damage_index(highest);
    }
}

/* Compares the sides at questions about whole, damaged and rough files, of these also at the planned masts, which are on the edge of
 * clear. Answers 1 unless every refusal was met. */
static int same(void)
{
    for (int kind = 0; kind < 12; kind++) {
        size_t length = make_file((enum kind)(kind % 6), kind > 5);
        struct question q = long_path(length);
        compare(&q);
        move_onto_lines(&q);
        compare(&q);
        for (int k = 0; k < 100; k++) {
            q = some_question(length);
            compare(&q);
        }
    }
    for (int k = 0; k < 4000; k++) {
        size_t length = make_file(k % 500 == 0 ? ALL : HUNDRED, k % 8 == 1);
        struct question q = some_question(length);
        damage(&q);
        compare(&q);
    }
    size_t length = make_file(HUNDRED, false);
    for (int k = 0; k < 8000; k++) {
        if (k % 100 == 0)
            roughen(length);
        struct question q = some_question(length);
        struct janlishuk_plan_answer plan = compare(&q);
        q.a = plan.first;
        q.b = plan.second;
        compare(&q);
    }
    printf("library and plain C answer the same; questions by refusal 0 to 9:");
    bool every = true;
    for (int refusal = 0; refusal < 10; refusal++) {
        printf(" %lu", compared[refusal]);
        every = every && compared[refusal] > 0;
    }
    printf("; spots by refusal 0 to 6:");
    for (int refusal = 0; refusal < 7; refusal++) {
        printf(" %lu", spots[refusal]);
        every = every && spots[refusal] > 0;
    }
    every = every && spots_alone > 0;
    printf(", read where the reading is refused %lu; uploads given %lu, refused with 10 %lu, with 1 to 3 %lu; points 0, 4, 5, 6: %lu %lu %lu %lu", spots_alone, uploads[0], uploads[1],
           uploads[2], points[0], points[4], points[5], points[6]);
    every = every && uploads[0] > 0 && uploads[1] > 0 && uploads[2] > 0 && points[0] > 0 && points[4] > 0 && points[5] > 0 && points[6] > 0;
    printf("%s\n", every ? "" : ", not all of them met");
    return every ? 0 : 1;
}

/* The north-eastern corner of the band. Where the band alone is covered, it is read from the last of the four rectangles that are tried. */
static const struct janlishuk_point seam = {ZONE, WEST + 7500 * (BAND_COLUMN + BAND), SOUTH + 15500 * (BAND_ROW + BAND)};

/* What a measured question is asked of: ground as it comes, with a ridge, a point on a seam, or grid lines. */
enum where { ANYWHERE, RIDGE, SEAM, LINES };

/* A call of the measured ones, by its name. */
struct call {
    const char *name;
    void (*ask)(const struct side *side, const struct question *q, unsigned long times);
    enum where where;
};

static const struct call calls[] = {
    {"check", ask_check, ANYWHERE},
    {"read", ask_read, ANYWHERE},
    {"read_seam", ask_read, SEAM},
    {"read_line", ask_read, LINES},
    {"spot", ask_spot, ANYWHERE},
    {"spot_seam", ask_spot, SEAM},
    {"upload", ask_upload, ANYWHERE},
    {"upload_line", ask_upload, LINES},
    {"profile", ask_profile, ANYWHERE},
    {"profile_line", ask_profile, LINES},
    {"verdict", ask_verdict, ANYWHERE},
    {"plan", ask_plan, ANYWHERE},
    {"plan_none", ask_plan, RIDGE},
};

/* The names of the files, in the order of their kinds. */
static const char *const kinds[] = {"hundred", "all", "most", "one", "two", "four"};

/* Asks what the arguments name; 2 where they name nothing. */
int main(int argc, char **argv)
{
    if (argc == 2 && strcmp(argv[1], "same") == 0)
        return same();
    int kind = HUNDRED;
    while (argc == 5 && kind <= FOUR && strcmp(argv[3], kinds[kind]) != 0)
        kind++;
    for (size_t c = 0; argc == 5 && kind <= FOUR && c < sizeof calls / sizeof calls[0]; c++) {
        for (size_t s = 0; s < sizeof sides / sizeof sides[0]; s++) {
            if (strcmp(argv[1], calls[c].name) != 0 || strcmp(argv[2], sides[s].name) != 0)
                continue;
            struct question q = long_path(make_file((enum kind)kind, calls[c].where == RIDGE));
            if (calls[c].where == SEAM)
                q.first = seam;
            if (calls[c].where == LINES)
                move_onto_lines(&q);
            calls[c].ask(&sides[s], &q, strtoul(argv[4], NULL, 10));
            return 0;
        }
    }
    fputs("bench same, or bench CALL SIDE FILE TIMES\n", stderr);
    return 2;
}
