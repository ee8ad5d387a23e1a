/* Planting: paths made together with the ground below them, so that they touch it exactly or miss it by a hair. */
#include "second.h"

/* The masts' greatest height, in metres. */
#define TALLEST 100

/* A file opened with what it was made for. */
static struct rules_file own(const struct file *file)
{
    return opened(file, file->base, file->zone);
}

/* Remembers a path, from either end. */
static void remember(struct file *file, struct path path)
{
    if (chance(50))
        path = (struct path){.first = path.second, .second = path.first, .a = path.b, .b = path.a};
    if (file->planted_count < MOST_PLANTED)
        file->planted[file->planted_count++] = path;
}

/* Plants a path over flat ground in some direction, of such a length that G of the middle sample is as high as both masts: touching. */
static void plant_tuned(struct file *file)
{
    uint32_t mast = between(1, TALLEST);
    uint64_t n = rules_steps((uint64_t)68000000 * mast);
    uint64_t middle = n / 2;
    uint64_t longest = (uint64_t)1000 * mast * 17000 * n * n / (middle * (n - middle));
    for (int tries = 0; tries < 40; tries++) {
        uint64_t de = chance(20) ? 0 : below((uint32_t)square_root(longest) + 1);
        uint64_t dn = square_root(longest - de * de);
        uint64_t q = de * de + dn * dn;
        struct path path = {.a = mast, .b = mast};
        if (rules_steps(q) != n || rules_bulge(q, n, middle) != (uint64_t)1000 * mast)
            continue;
        if (!place_path(file->home, file->base, file->zone, (int64_t)de, chance(50) ? (int64_t)dn : -(int64_t)dn, &path))
            continue;
        remember(file, path);
        return;
    }
}

/* Sets the elevation of a word, and leaves its code. */
static void set_elevation(uint8_t *record, uint64_t word, uint64_t elevation)
{
    uint8_t *two = record + 2 * (word - 1);
    two[0] = (uint8_t)((two[0] & 0xE0) | (elevation / 256));
    two[1] = (uint8_t)(elevation % 256);
}

/* Makes the ground at a point `millimetres` high, rounded up. The point lies 1 m from a unit line to its north or south: the two words
 * of that line take the whole metres, and the two of the other line, which weigh little, take the rest by being raised. */
static void raise_ground(struct file *file, struct janlishuk_point point, uint64_t millimetres)
{
    struct rules_corner corners[4];
    rules_corners(own(file), point, RULES_OWN, corners);
    uint64_t record = rules_position(file->bytes, rules_rectangle(file->base, point));
    uint8_t *bytes = file->bytes + 1024 * (record - 1);
    uint64_t word = rules_word(file->base, point);
    const uint64_t words[4] = {word, word + 1, word + 16, word + 17};
    uint64_t metres = millimetres / 1000;
    uint64_t rest = 250 * (millimetres % 1000);
    int light = corners[0].weight < corners[2].weight ? 0 : 2;
    int heavier = corners[light].weight < corners[light + 1].weight ? light + 1 : light;
    int lighter = heavier == light ? light + 1 : light;
    for (int k = 0; k < 4; k++)
        set_elevation(bytes, words[k], metres);
    set_elevation(bytes, words[heavier], metres + rest / corners[heavier].weight);
    rest %= corners[heavier].weight;
    set_elevation(bytes, words[lighter], metres + rest / corners[lighter].weight);
}

/* The height to which the ground may come at sample i of a path before it is above the line between the masts, in millimetres; below 0
 * where there is none. */
static int64_t room_below(const struct file *file, const struct path *path, uint64_t n, uint64_t i)
{
    struct janlishuk_read_answer first = rules_read(own(file), path->first);
    struct janlishuk_read_answer last = rules_read(own(file), path->second);
    if (first.refusal != 0 || last.refusal != 0)
        return -1;
    uint64_t end_a = first.height / 250 + (uint64_t)1000 * path->a;
    uint64_t end_b = last.height / 250 + (uint64_t)1000 * path->b;
    uint64_t line = ((n - i) * end_a + i * end_b) / n;
    return (int64_t)line - (int64_t)rules_bulge(rules_square(path->first, path->second), n, i);
}

/* Plants a path to the east, 1 m beside a unit line, with one sample raised until it touches the line between masts of some heights, or
 * in some cases 1 mm more. */
static void plant_ridge(struct file *file)
{
    uint32_t most = file->home.columns * 15 < 200 ? file->home.columns * 15 : 200;
    uint64_t n = between(2, most);
    uint64_t i = n % 2 == 0 && chance(60) ? n / 2 : between(1, (uint32_t)n - 1);
    struct path path = {.a = below(TALLEST + 1)};
    path.b = chance(50) ? path.a : below(TALLEST + 1);
    for (int tries = 0; tries < 20; tries++) {
        if (!place_path(file->home, file->base, file->zone, (int64_t)(500 * n) - below(250), 0, &path))
            continue;
        uint32_t aside = chance(50) ? 1 : 499;
        path.first.northing = path.second.northing = path.first.northing / 500 * 500 + aside;
        struct janlishuk_point top = rules_sample(path.first, path.second, n, i);
        uint64_t rectangle = rules_rectangle(file->base, top);
        if (top.easting % 500 < 100 || top.easting % 500 > 400 || rectangle == 0 || rules_position(file->bytes, rectangle) == 0)
            continue;
        int64_t room = room_below(file, &path, n, i);
        if (room < 0 || room > 7000000)
            continue;
        raise_ground(file, top, (uint64_t)room + (chance(25) ? 1 : 0));
        remember(file, path);
        return;
    }
}

/* Plants a few paths in most files. */
void plant_paths(struct file *file, bool flat)
{
    file->planted_count = 0;
    if (file->covered_count == 0 || chance(20))
        return;
    for (uint32_t k = 0; k < MOST_PLANTED / 2; k++) {
        if (flat && chance(60))
            plant_tuned(file);
        else
            plant_ridge(file);
    }
}
