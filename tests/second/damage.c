/* Damaging files, in the ways that document 01 names and in others. */
#include <string.h>

#include "second.h"

#define DAMAGE_TEXT(name, text, refusal) text,
#define DAMAGE_REFUSAL(name, text, refusal) refusal,

/* What a kind of damage is called. */
const char *damage_name(enum damage damage)
{
    static const char *const names[DAMAGE_KINDS] = {DAMAGES(DAMAGE_TEXT)};
    return names[damage];
}

/* The refusal that a kind of damage leads to; 0 of none. */
uint32_t damage_refusal(enum damage damage)
{
    static const uint32_t refusals[DAMAGE_KINDS] = {DAMAGES(DAMAGE_REFUSAL)};
    return refusals[damage];
}

/* The number in a position of the index. */
static uint32_t get_entry(const struct file *file, uint32_t n)
{
    return (uint32_t)rules_position(file->bytes, n);
}

/* Writes a number into a position of the index. */
static void set_entry(struct file *file, uint32_t n, uint32_t number)
{
    put(file->bytes + 2 * (n - 1), number);
}

/* Remembers a position as broken while there is room; not M's. */
static void remember_broken(struct file *file, uint32_t n)
{
    if (n < 3072 && file->broken_count < MOST_BROKEN)
        file->broken[file->broken_count++] = n;
}

/* Writes a number into a position of the index, and remembers it as broken. */
static void break_entry(struct file *file, uint32_t n, uint32_t number)
{
    set_entry(file, n, number);
    remember_broken(file, n);
}

/* A position that a rectangle of the file has: the first, the last, one about a remembered corner, one in the last column, a covered one or
 * any. */
static uint32_t draw_position(const struct file *file)
{
    uint32_t last = 100 * (uint32_t)rules_rows(file->base) - 1;
    uint32_t step = steps_back[below(RULES_NONE)];
    uint32_t corner = file->corner_count > 0 ? file->corners[below(file->corner_count)] : 0;
    if (chance(20))
        return chance(50) ? 1 : last;
    if (corner > step && chance(75))
        return corner - step;
    if (chance(20))
        return 100 * between(1, (uint32_t)rules_rows(file->base)) - 1;
    if (file->covered_count > 0 && chance(50))
        return file->covered[below(file->covered_count)];
    return between(1, last);
}

/* Makes the file longer by some bytes of one value, or shorter. */
static void set_length(struct file *file, size_t length)
{
    if (length > MOST_BYTES)
        length = MOST_BYTES;
    if (length > file->length)
        memset(file->bytes + file->length, draw_filler(), length - file->length);
    file->length = length;
    file->kept = length;
}

/* A length that is not a multiple of 1024, near the old one. */
static void make_ragged(struct file *file)
{
    uint32_t aside = chance(50) ? 1 : between(1, 1023);
    set_length(file, chance(50) ? file->length + aside : file->length - aside);
}

/* Breaks M: one of 0 to 5, in an index with or without entries, or above the record count, in some cases with an entry that is M. */
static void break_highest(struct file *file)
{
    uint32_t records = (uint32_t)(file->length / 1024);
    if (file->damage == HIGHEST_LOW && chance(50))
        memset(file->bytes, 0, 6 * 1024);
    if (file->damage == HIGHEST_LOW)
        set_entry(file, 3072, chance(50) ? 5 : below(6));
    else
        set_entry(file, 3072, chance(50) ? records + 1 : between(records + 1, 65535));
    if (file->damage == HIGHEST_HIGH && chance(40))
        break_entry(file, draw_position(file), get_entry(file, 3072));
}

/* M just below the entry of a covered rectangle, often one with a missing height, so that this entry and perhaps others are above it, with
 * their records in the file. */
static void lower_highest(struct file *file)
{
    uint32_t rectangle = file->covered[below(file->covered_count)];
    if (file->missing_count > 0 && chance(85))
        rectangle = file->missing[below(file->missing_count)].rectangle;
    set_entry(file, 3072, get_entry(file, rectangle) - 1);
    remember_broken(file, rectangle);
}

/* How many entries are broken: mostly one, else some. */
static uint32_t draw_broken_count(void)
{
    return chance(60) ? 1 : between(2, MOST_BROKEN);
}

/* Entries of 1 to 6, mostly one. */
static void lower_entries(struct file *file)
{
    for (uint32_t k = draw_broken_count(); k > 0; k--)
        break_entry(file, draw_position(file), chance(30) ? 6 : chance(30) ? 1 : between(1, 6));
}

/* Entries above M, mostly one: just above it or far, with or without a record of that number in the file. */
static void raise_entries(struct file *file)
{
    uint32_t highest = get_entry(file, 3072);
    if (file->covered_count > 0 && chance(50)) {
        lower_highest(file);
        return;
    }
    if (chance(60))
        set_length(file, file->length + 1024);
    for (uint32_t k = draw_broken_count(); k > 0; k--)
        break_entry(file, draw_position(file), chance(60) ? highest + 1 : between(highest + 1, 65535));
}

/* One number in two positions: that of a covered rectangle, the lowest or the highest. A file without entries gets a record first. */
static void repeat_entry(struct file *file)
{
    uint32_t last = 100 * (uint32_t)rules_rows(file->base) - 1;
    uint32_t one = draw_position(file);
    uint32_t other = chance(30) ? one % last + 1 : draw_position(file);
    if (file->length == 6 * 1024)
        set_length(file, 7 * 1024);
    if (get_entry(file, 3072) == 6)
        set_entry(file, 3072, 7);
    uint32_t number = chance(50) ? get_entry(file, one) : chance(50) ? 7 : get_entry(file, 3072);
    if (number == 0)
        number = 7;
    if (other == one)
        other = one % last + 1;
    break_entry(file, one, number);
    break_entry(file, other, number);
}

/* A number in one of the positions from 100 x rows to 3071: the first, the last or any of them. */
static void stray_entry(struct file *file)
{
    uint32_t first = 100 * (uint32_t)rules_rows(file->base);
    uint32_t n = chance(40) ? first : chance(40) ? 3071 : between(first, 3071);
    break_entry(file, n, chance(50) ? get_entry(file, 3072) : chance(50) ? 1 : between(1, 65535));
}

/* Turns a few bits, in the index or anywhere. */
static void turn_bits(struct file *file)
{
    uint32_t bound = chance(50) ? 6 * 1024 : (uint32_t)file->length;
    for (uint32_t k = between(1, 8); k > 0; k--) {
        uint32_t byte = below(bound);
        file->bytes[byte] ^= (uint8_t)(1 << below(8));
        remember_broken(file, byte / 2 + 1);
    }
}

/* The name of the file in its first four bytes. */
static void stamp_name(struct file *file)
{
    struct janlishuk_name_answer name = rules_name(file->base, file->zone);
    memcpy(file->bytes, name.name, 4);
    remember_broken(file, 1);
    remember_broken(file, 2);
}

/* All bytes drawn. */
static void make_noise(struct file *file)
{
    for (size_t k = 0; k < file->length; k++)
        file->bytes[k] = (uint8_t)draw();
}

/* The index one byte or one position further on or back; M moves too. */
static void shift_index(struct file *file)
{
    size_t by = between(1, 2);
    size_t rest = 6 * 1024 - by;
    if (chance(50))
        memmove(file->bytes + by, file->bytes, rest);
    else
        memmove(file->bytes, file->bytes + by, rest);
}

/* Every number of the index low byte first. */
static void swap_index(struct file *file)
{
    for (uint32_t n = 1; n <= 3072; n++) {
        uint32_t number = get_entry(file, n);
        set_entry(file, n, number % 256 * 256 + number / 256);
    }
}

/* A number that no entry may be: 1 to 6, just above M, or far above it. */
static uint32_t draw_bad(uint32_t highest)
{
    uint32_t kind = below(3);
    return kind == 0 ? between(1, 6) : kind == 1 ? highest + 1 : between(highest + 1, 65535);
}

/* A number other than 0 for an entry: 7 to M if there is such, or a bad one. */
static uint32_t draw_nonzero(uint32_t highest)
{
    return highest > 6 && chance(50) ? between(7, highest) : draw_bad(highest);
}

/* A number of any kind for an entry: 0, 7 to M if there is such, or a bad one. */
uint32_t draw_litter(uint32_t highest)
{
    return chance(20) ? 0 : draw_nonzero(highest);
}

/* Keeps, of the positions about a corner, most of those that a spot in the corner looks at, and of those after them some. */
static void keep_at_corner(const struct file *file, uint32_t own, bool kept[3073])
{
    struct rules_place corner = {.ix = own % 100, .iy = own / 100};
    bool looking = true;
    for (enum rules_from from = RULES_OWN; from < RULES_NONE; from++) {
        if (!rules_allowed(corner, from))
            continue;
        uint64_t rectangle = rules_seat(corner, from).rectangle;
        kept[rectangle] = chance(looking ? 90 : 30);
        looking = looking && rules_record(opened(file, file->base, file->zone), rectangle) == 0;
    }
}

/* Numbers of all kinds in every position but M, those of most covered rectangles, and most of those that a spot in a remembered corner
 * looks at. */
static void litter_index(struct file *file)
{
    bool kept[3073] = {[3072] = true};
    for (uint32_t k = 0; k < file->covered_count; k++)
        kept[file->covered[k]] = chance(95);
    for (uint32_t k = 0; k < file->corner_count; k++)
        keep_at_corner(file, file->corners[k], kept);
    for (uint32_t n = 1; n <= 3072; n++)
        if (!kept[n])
            set_entry(file, n, draw_litter(get_entry(file, 3072)));
}

/* Redraws the entries about every remembered corner: the first of them 0, none or some, then one that is not, and any after it. In column 0
 * those at the other end of the ground are bad. */
static void break_corners(struct file *file)
{
    uint32_t highest = get_entry(file, 3072);
    for (uint32_t k = 0; k < file->corner_count; k++) {
        uint32_t own = file->corners[k];
        uint32_t first = below(RULES_NONE);
        for (uint32_t from = 0; from < RULES_NONE && own > steps_back[from]; from++) {
            bool other_end = own % 100 == 0 && (from == RULES_WEST || from == RULES_SOUTH_WEST);
            uint32_t number = from < first ? 0 : from == first ? draw_nonzero(highest) : draw_litter(highest);
            set_entry(file, own - steps_back[from], other_end ? draw_bad(highest) : number);
        }
    }
}

/* Whether a spot may be answered otherwise than a reading, which is where the index is damaged and M is within its range. */
bool spots_may_differ(const struct file *file)
{
    return damage_refusal(file->damage) == 3 && rules_highest_holds(opened(file, file->base, file->zone));
}

/* Does the damage that the file is to have. */
void damage_file(struct file *file)
{
    file->broken_count = 0;
    switch (file->damage) {
    case RAGGED: make_ragged(file); break;
    case SHORT: set_length(file, 5 * 1024); break;
    case LONG: set_length(file, 4097 * 1024); break;
    case EMPTY: set_length(file, 0); break;
    case HIGHEST_LOW:
    case HIGHEST_HIGH: break_highest(file); break;
    case ENTRY_LOW: lower_entries(file); break;
    case ENTRY_HIGH: raise_entries(file); break;
    case ENTRY_TWICE: repeat_entry(file); break;
    case STRAY: stray_entry(file); break;
    case CUT: set_length(file, below((uint32_t)file->length)); break;
    case GROWN: set_length(file, file->length + between(1, 5000)); break;
    case BITS: turn_bits(file); break;
    case STAMPED: stamp_name(file); break;
    case NOISE: make_noise(file); break;
    case SHIFTED: shift_index(file); break;
    case SWAPPED: swap_index(file); break;
    case LITTERED: litter_index(file); break;
    case CORNERED: break_corners(file); break;
    case VAST: file->length += (size_t)1 << 32; break;
    case WHOLE:
    case DAMAGE_KINDS: break;
    }
}
