/* Asking a spot again, of a copy of the file in which every byte that it does not look at is drawn. The answer must be the same. Where a
 * spot comes to its entries, the pages in which it looks at nothing cannot be touched at all. */
#define _DEFAULT_SOURCE
#include <string.h>
#include <sys/mman.h>
#include <unistd.h>

#include "second.h"

/* Most 16-bit numbers that a spot looks at: M, four entries and four words. */
#define MOST_SHOWN 9

/* The copy of a file, from its first spot until it is taken back, and the bytes at which it shows what the file has. */
static struct pages copy;
static uint32_t shown_count;
static size_t shown[MOST_SHOWN];

/* Draws the 16-bit number at a byte of the copy: for a position of the index one of all kinds, for a word of a record any, and often one
 * without height. */
static void draw_number(uint32_t highest, size_t byte)
{
    uint64_t bits = draw();
    uint32_t word = (uint32_t)(bits % 65536) | (bits >> 62 == 0 ? RULES_NO_HEIGHT : 0);
    put(copy.bytes + byte, byte < 6 * 1024 ? draw_litter(highest) : word);
}

/* M of a file, or 0 where it is too short to have one. */
static uint32_t highest_of(const struct file *file)
{
    return file->kept < 6 * 1024 ? 0 : (uint32_t)rules_position(file->bytes, 3072);
}

/* Makes the copy, as long as the file and lent in the same way, with nothing of the file in it. */
static void make_copy(const struct file *file)
{
    copy = map_file(file);
    open_pages(copy.inner, copy.inner_size, PROT_READ | PROT_WRITE);
    for (size_t byte = 0; byte + 2 <= file->length; byte += 2)
        draw_number(highest_of(file), byte);
    if (file->length % 2 == 1)
        copy.bytes[file->length - 1] = (uint8_t)draw();
}

/* Shows two bytes of the file. */
static void show(const struct file *file, size_t byte)
{
    memcpy(copy.bytes + byte, file->bytes + byte, 2);
    shown[shown_count++] = byte;
}

/* Shows the entries of a point on the ground, in the order in which they are tried, up to the first that is not 0. */
static void show_entries(const struct file *file, struct rules_file asked, struct rules_place place)
{
    uint64_t entry = 0;
    for (enum rules_from from = RULES_OWN; from < RULES_NONE && entry == 0; from++) {
        uint64_t rectangle = rules_seat(place, from).rectangle;
        if (!rules_allowed(place, from) || rectangle == 0)
            continue;
        entry = rules_record(asked, rectangle);
        show(file, 2 * (rectangle - 1));
    }
}

/* Shows the words that weigh in at a point that is read, or is refused with 6. */
static void show_words(const struct file *file, struct rules_file asked, struct janlishuk_point point)
{
    enum rules_from taken = rules_taken(asked, point);
    struct rules_seat seat = rules_seat(rules_place(asked.base, point), taken);
    struct rules_corner corners[4];
    rules_corners(asked, point, taken, corners);
    for (uint64_t k = 0; k < 4; k++)
        if (corners[k].weight > 0)
            show(file, 1024 * (rules_record(asked, seat.rectangle) - 1) + 2 * (16 * (seat.row + k / 2) + seat.column + k % 2));
}

/* Shows what a spot looks at before it is answered with this refusal, and answers whether it comes to its entries. */
static bool show_spot(const struct file *file, const struct question *q, uint32_t refusal)
{
    struct rules_file asked = opened(file, q->base, q->zone);
    if (refusal == 1 || refusal == 2)
        return false;
    show(file, 2 * (3072 - 1));
    if (refusal == 4 || !rules_highest_holds(asked))
        return false;
    show_entries(file, asked, rules_place(q->base, q->first));
    if (refusal == 0 || refusal == 6)
        show_words(file, asked, q->first);
    return true;
}

/* Opens the pages of the copy to reading: all of them, or only those in which something is shown. */
static void open_copy(bool only_shown)
{
    size_t page = (size_t)sysconf(_SC_PAGESIZE);
    open_pages(copy.inner, copy.inner_size, only_shown ? PROT_NONE : PROT_READ);
    for (uint32_t k = 0; only_shown && k < shown_count; k++)
        open_pages(copy.inner + (size_t)(copy.bytes + shown[k] - copy.inner) / page * page, page, PROT_READ);
}

/* Whether a question is of a spot in a file that can be copied, which it cannot where the length is vast. */
bool can_ask_blind(const struct file *file, const struct question *q)
{
    return q->call == SPOT && file->kept == file->length;
}

/* The library's answer for a spot from the copy; what `answer` held before is the answer from the file. */
void ask_blind(const struct file *file, const struct question *q, union answer *answer)
{
    if (copy.area == NULL)
        make_copy(file);
    open_copy(show_spot(file, q, answer->read.refusal));
    answer->read = janlishuk_spot(copy.bytes, file->length, q->base, q->zone, q->first);
    open_pages(copy.inner, copy.inner_size, PROT_READ | PROT_WRITE);
    while (shown_count > 0)
        draw_number(highest_of(file), shown[--shown_count]);
}

/* Gives the pages of the copy back, if there is one. */
void take_back_copy(void)
{
    if (copy.area != NULL)
        munmap(copy.area, copy.size);
    copy.area = NULL;
}
