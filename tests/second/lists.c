/* The lists of an upload: lending them to the library, each in a page of its own, and comparing what it leaves there with what the rules
 * leave in theirs. */
#define _DEFAULT_SOURCE
#include <inttypes.h>
#include <stdio.h>
#include <string.h>
#include <sys/mman.h>

#include "second.h"

/* Most entries that are printed where the lists differ, and most points that are printed of a survey. */
#define MOST_PRINTED 8

/* The page of each list: as it is drawn, as the rules leave it, and the one that is lent to the library. */
static uint32_t drawn[LISTS][LIST_BYTES / 4];
static uint32_t ruled[LISTS][LIST_BYTES / 4];
static uint8_t *lent[LISTS];

static const char *const list_names[LISTS] = {"eastings", "northings", "heights", "codes", "refusals"};

/* The bytes of an entry of a list. */
size_t entry_size(enum list list)
{
    return list <= LIST_HEIGHTS ? 4 : 1;
}

/* Where in its page a list begins; at the end of the page where none of its entries is there. */
static size_t start_of(const struct survey *survey, enum list list)
{
    switch (survey->lending[list]) {
    case TO_END: return LIST_BYTES - entry_size(list) * survey->count[list];
    case FROM_START: return 0;
    default: return LIST_BYTES;
    }
}

/* How many entries of a list are there: all, those that its page has room for, or none. */
size_t kept_entries(const struct survey *survey, enum list list)
{
    size_t room = (LIST_BYTES - start_of(survey, list)) / entry_size(list);
    return survey->count[list] < room ? survey->count[list] : room;
}

/* The pointer to a list, in one of its pages. */
static void *list_in(void *page, const struct survey *survey, enum list list)
{
    return survey->lending[list] == AS_NULL ? NULL : (uint8_t *)page + start_of(survey, list);
}

/* The entry of a list at a byte of its page. */
static uint32_t entry_at(const void *page, enum list list, size_t byte)
{
    uint32_t entry = ((const uint8_t *)page)[byte];
    if (entry_size(list) == sizeof entry)
        memcpy(&entry, (const uint8_t *)page + byte, sizeof entry);
    return entry;
}

/* Entry k of a list before it is lent. */
uint32_t entry_before(const struct survey *survey, enum list list, size_t k)
{
    return entry_at(drawn[list], list, start_of(survey, list) + entry_size(list) * k);
}

/* Entry k of a list as the rules leave it. */
uint32_t entry_by_rules(const struct survey *survey, enum list list, size_t k)
{
    return entry_at(ruled[list], list, start_of(survey, list) + entry_size(list) * k);
}

/* Draws every byte of the pages of all lists. */
void draw_pages(void)
{
    for (enum list list = 0; list < LISTS; list++)
        for (size_t k = 0; k < LIST_BYTES / 4; k += 2) {
            uint64_t bits = draw();
            drawn[list][k] = (uint32_t)bits;
            drawn[list][k + 1] = (uint32_t)(bits >> 32);
        }
}

/* Writes a point into entry k of the two lists of points, where they have it. */
void set_point(const struct survey *survey, size_t k, struct janlishuk_point point)
{
    if (k < kept_entries(survey, LIST_EASTINGS))
        drawn[LIST_EASTINGS][start_of(survey, LIST_EASTINGS) / 4 + k] = point.easting;
    if (k < kept_entries(survey, LIST_NORTHINGS))
        drawn[LIST_NORTHINGS][start_of(survey, LIST_NORTHINGS) / 4 + k] = point.northing;
}

/* Maps the page of each list, with a page on both sides that cannot be touched at all. */
static void map_pages(void)
{
    uint8_t *area = mmap(NULL, LIST_BYTES * (2 * LISTS + 1), PROT_NONE, MAP_PRIVATE | MAP_ANONYMOUS, -1, 0);
    need(area != MAP_FAILED, "mmap");
    for (enum list list = 0; list < LISTS; list++) {
        lent[list] = area + LIST_BYTES * (2 * list + 1);
        need(mprotect(lent[list], LIST_BYTES, PROT_READ | PROT_WRITE) == 0, "mprotect");
    }
}

/* Copies what was drawn into the pages that are lent, and shuts those of the points to writing. */
static void lend_lists(void)
{
    if (lent[0] == NULL)
        map_pages();
    for (enum list list = 0; list < LISTS; list++) {
        bool points = list < LIST_HEIGHTS;
        need(!points || mprotect(lent[list], LIST_BYTES, PROT_READ | PROT_WRITE) == 0, "mprotect");
        memcpy(lent[list], drawn[list], LIST_BYTES);
        need(!points || mprotect(lent[list], LIST_BYTES, PROT_READ) == 0, "mprotect");
    }
}

/* The library's answer to an upload, which leaves its entries in the pages that it is lent. */
struct janlishuk_upload_answer upload_to_library(const struct file *file, const struct question *q)
{
    const size_t *count = q->survey.count;
    void *list[LISTS];
    lend_lists();
    for (enum list k = 0; k < LISTS; k++)
        list[k] = list_in(lent[k], &q->survey, k);
    return janlishuk_upload(file->lent, file->length, q->base, q->zone, list[LIST_EASTINGS], count[LIST_EASTINGS], list[LIST_NORTHINGS],
                            count[LIST_NORTHINGS], list[LIST_HEIGHTS], count[LIST_HEIGHTS], list[LIST_CODES], count[LIST_CODES],
                            list[LIST_REFUSALS], count[LIST_REFUSALS]);
}

/* The lists of an upload in the pages of the rules. */
struct rules_lists lists_of_rules(const struct survey *survey)
{
    return (struct rules_lists){
        .eastings = list_in(ruled[LIST_EASTINGS], survey, LIST_EASTINGS),
        .eastings_count = survey->count[LIST_EASTINGS],
        .northings = list_in(ruled[LIST_NORTHINGS], survey, LIST_NORTHINGS),
        .northings_count = survey->count[LIST_NORTHINGS],
        .heights = list_in(ruled[LIST_HEIGHTS], survey, LIST_HEIGHTS),
        .heights_room = survey->count[LIST_HEIGHTS],
        .codes = list_in(ruled[LIST_CODES], survey, LIST_CODES),
        .codes_room = survey->count[LIST_CODES],
        .refusals = list_in(ruled[LIST_REFUSALS], survey, LIST_REFUSALS),
        .refusals_room = survey->count[LIST_REFUSALS],
    };
}

/* The rules' answer to an upload, which leaves its entries in the pages of the rules. */
struct janlishuk_upload_answer upload_by_rules(struct rules_file file, const struct survey *survey)
{
    memcpy(ruled, drawn, sizeof ruled);
    return rules_upload(file, lists_of_rules(survey));
}

/* Whether the library has left in every page what the rules have left in theirs: in the entries of the points, in those after the last
 * point, in the lists of points, and in the rest of the page, which is in no list. */
bool same_lists(void)
{
    bool same = true;
    for (enum list list = 0; list < LISTS; list++)
        same = same && memcmp(lent[list], ruled[list], LIST_BYTES) == 0;
    return same;
}

/* Prints how many entries each list has and how it is lent, and the first points. */
void print_survey(const struct survey *survey)
{
    static const char *const lendings[4] = {"up to the page beyond", "from the page before", "in the page beyond", "as a null pointer"};
    size_t eastings = kept_entries(survey, LIST_EASTINGS);
    size_t northings = kept_entries(survey, LIST_NORTHINGS);
    for (enum list list = 0; list < LISTS; list++)
        printf("  %s: %zu entries, lent %s\n", list_names[list], survey->count[list], lendings[survey->lending[list]]);
    for (size_t k = 0; k < MOST_PRINTED && k < eastings && k < northings; k++)
        printf("  point %zu: easting %" PRIu32 " northing %" PRIu32 "\n", k, entry_before(survey, LIST_EASTINGS, k),
               entry_before(survey, LIST_NORTHINGS, k));
}

/* Prints the first entries in which the lists of the library differ from those of the rules, and what stood there before. A number below
 * 0, or not below that of the entries, is of the rest of the page. */
void print_lists(const struct survey *survey)
{
    int printed = 0;
    for (enum list list = 0; list < LISTS; list++)
        for (size_t byte = 0; byte < LIST_BYTES && printed < MOST_PRINTED; byte += entry_size(list)) {
            uint32_t library = entry_at(lent[list], list, byte);
            uint32_t rules = entry_at(ruled[list], list, byte);
            if (library == rules)
                continue;
            long k = ((long)byte - (long)start_of(survey, list)) / (long)entry_size(list);
            char name[32];
            snprintf(name, sizeof name, "%s[%ld]", list_names[list], k);
            printf("  %-16s %20" PRIu32 " %20" PRIu32 "  <<<  before: %" PRIu32 "\n", name, library, rules,
                   entry_at(drawn[list], list, byte));
            printed++;
        }
}
