/* The grammar of a line as patterns: a third reading of it, by which bad columns are checked and the places counted at which lines went bad. In a
 * pattern F is a NAME4, A a NAME, 9 a number, and any other byte itself. */
#include <string.h>

#include "sessions.h"

static const char *const patterns[COMMANDS] = {"use F", "site A 9 9", "path A A", "masts A A 9 9"};

/* Steps within a NAME4: before N, before the letter, before the first digit, behind 0, behind 1 to 5, behind 6, and behind it all. */
enum { BEFORE_N, BEFORE_LETTER, BEFORE_ZONE, BEHIND_0, BEHIND_1_TO_5, BEHIND_6, BEHIND_FILE };

/* Whether a byte is one of a text. */
static bool among(uint8_t byte, const char *text)
{
    return byte != '\0' && strchr(text, byte) != NULL;
}

static const char capitals[] = "ABCDEFGHIJKLMNOPQRSTUVWXYZ";
static const char digits[] = "0123456789";

/* The step behind a byte of a NAME4, or of what begins one; the same step where the byte does not fit. */
static uint32_t step_in_file(uint32_t step, uint8_t byte)
{
    switch (step) {
    case BEFORE_N: return byte == 'N' ? BEFORE_LETTER : step;
    case BEFORE_LETTER: return among(byte, "ABCDEFGHIJKLMNOPQRSTU") ? BEFORE_ZONE : step;
    case BEFORE_ZONE: return byte == '0' ? BEHIND_0 : among(byte, "12345") ? BEHIND_1_TO_5 : byte == '6' ? BEHIND_6 : step;
    case BEHIND_0: return among(byte, "123456789") ? BEHIND_FILE : step;
    case BEHIND_1_TO_5: return among(byte, digits) ? BEHIND_FILE : step;
    case BEHIND_6: return byte == '0' ? BEHIND_FILE : step;
    default: return step;
    }
}

/* The step behind a byte of a NAME; the same where the byte does not fit. */
static uint32_t step_in_name(uint32_t step, uint8_t byte)
{
    bool fits = among(byte, capitals) || (step > 0 && (among(byte, digits) || byte == '-'));
    return fits && step < MOST_NAME ? step + 1 : step;
}

/* The step behind a byte of a number; the same where the byte does not fit. */
static uint32_t step_in_number(uint32_t step, uint8_t byte)
{
    if (step == 0 && byte == '0')
        return BEHIND_ZERO;
    return step < MOST_DIGITS && among(byte, digits) ? step + 1 : step;
}

/* The step behind a byte within a part of a pattern; the same where the byte does not fit. */
static uint32_t step_in(char part, uint32_t step, uint8_t byte)
{
    switch (part) {
    case FILE_PART: return step_in_file(step, byte);
    case NAME_PART: return step_in_name(step, byte);
    case NUMBER_PART: return step_in_number(step, byte);
    default: return step == 0 && byte == (uint8_t)part ? 1 : step;
    }
}

/* Whether a part of a pattern may end at a step. */
static bool may_end(char part, uint32_t step)
{
    return part == FILE_PART ? step == BEHIND_FILE : step > 0;
}

/* The command that a line can only be, by its first byte; COMMANDS where it can be none. */
static enum command command_of(uint8_t byte)
{
    enum command command = 0;
    while (command < COMMANDS && (uint8_t)patterns[command][0] != byte)
        command++;
    return command;
}

/* Goes a byte further: within the part, or else into the next if the part may end. False where the byte does not fit. */
static bool go_on(struct place *place, uint8_t byte)
{
    const char *pattern = patterns[place->command];
    uint32_t step = step_in(pattern[place->part], place->step, byte);
    if (step != place->step) {
        place->step = step;
        return true;
    }
    if (!may_end(pattern[place->part], place->step) || pattern[place->part + 1] == '\0')
        return false;
    step = step_in(pattern[place->part + 1], 0, byte);
    if (step == 0)
        return false;
    place->part++;
    place->step = step;
    return true;
}

/* How far a line is one that a legal line begins with. */
struct walk walk_line(const uint8_t *line, size_t length)
{
    struct walk walk = {0};
    if (length == 0 || command_of(line[0]) == COMMANDS)
        return walk;
    walk.place.command = command_of(line[0]);
    while (walk.length < length && go_on(&walk.place, line[walk.length]))
        walk.length++;
    const char *part = patterns[walk.place.command] + walk.place.part;
    walk.part = *part;
    walk.legal = part[1] == '\0' && may_end(*part, walk.place.step) && walk.length == length;
    return walk;
}

/* Adds a byte to a line, while there is room. */
void add_byte(struct text *text, uint8_t byte)
{
    if (text->length < sizeof text->bytes)
        text->bytes[text->length++] = byte;
}

/* Adds text to a line. */
void add_text(struct text *text, const char *more)
{
    while (*more != '\0')
        add_byte(text, (uint8_t)*more++);
}

/* Adds a number to a line. */
void add_number(struct text *text, uint32_t number)
{
    char decimal[16];
    snprintf(decimal, sizeof decimal, "%lu", (unsigned long)number);
    add_text(text, decimal);
}

/* One byte of a text. */
static uint8_t one_of(const char *text)
{
    return (uint8_t)text[below((uint32_t)strlen(text))];
}

/* Adds a drawn name of a length. */
void draw_name(struct text *text, size_t length)
{
    for (size_t k = 0; k < length; k++)
        add_byte(text, k == 0 || chance(50) ? one_of(capitals) : chance(70) ? one_of(digits) : '-');
}

/* A byte for a line that is to be spoilt, any but a line feed: often one that fits elsewhere, or nearly so. */
uint8_t draw_byte(void)
{
    uint8_t byte = chance(60) ? one_of(" 0123456789-ABNUVZ@[/:_,;.\r\t\v\f\"'abumpsz") : chance(15) ? 0 : (uint8_t)draw();
    return byte == '\n' ? '\r' : byte;
}

/* The most bytes that a part of a pattern stands for. */
static size_t most_of(char part)
{
    return part == FILE_PART ? FILE_NAME : part == NAME_PART ? MOST_NAME : part == NUMBER_PART ? MOST_DIGITS : 1;
}

/* Adds a drawn beginning of a part of a pattern that has so many bytes. */
static void draw_part(struct text *text, char part, size_t length)
{
    if (part == NAME_PART)
        draw_name(text, length);
    for (size_t k = 0; k < length && part == NUMBER_PART; k++)
        add_byte(text, k == 0 ? one_of("123456789") : one_of(digits));
    for (size_t k = 0; k < length && part == FILE_PART; k++)
        add_byte(text, k == 0 ? 'N' : k == 1 ? one_of("ADJKTU") : k == 2 ? one_of("12345") : one_of(digits));
    if (most_of(part) == 1 && length > 0)
        add_byte(text, (uint8_t)part);
}

/* Remembers a way that ends with these bytes behind a line's beginning. */
static void remember(struct way *ways, size_t *count, struct text text, const char *more)
{
    add_text(&text, more);
    memcpy(ways[*count].bytes, text.bytes, text.length);
    ways[*count].length = text.length;
    ++*count;
}

/* Remembers ways to all steps of a part behind a line's beginning. */
static void remember_steps(struct way *ways, size_t *count, struct text before, char part)
{
    size_t most = most_of(part) == 1 ? 0 : most_of(part);
    for (size_t length = 0; length <= most; length++) {
        struct text text = before;
        draw_part(&text, part, length);
        remember(ways, count, text, "");
    }
    if (part == NUMBER_PART)
        remember(ways, count, before, "0");
    if (part == FILE_PART) {
        remember(ways, count, before, "NK0");
        remember(ways, count, before, "NU6");
    }
}

/* Draws a way to every place of the grammar, and answers how many there are. Behind a part of many bytes, the steps of that part are the ways to what
 * follows it. */
size_t draw_ways(struct way ways[MOST_WAYS])
{
    size_t count = 0;
    for (enum command command = 0; command < COMMANDS; command++) {
        struct text text = {0};
        for (const char *part = patterns[command]; *part != '\0'; part++) {
            bool behind_many = text.length > 0 && most_of(part[-1]) > 1;
            if (!behind_many)
                remember_steps(ways, &count, text, *part);
            draw_part(&text, *part, *part == FILE_PART ? FILE_NAME : between(1, (uint32_t)most_of(*part)));
        }
    }
    return count;
}

/* Writes a line, in one case of four with something behind it. */
static void write_way(const struct way *way, const uint8_t *byte)
{
    fwrite(way->bytes, 1, way->length, stdout);
    if (byte != NULL)
        putchar(*byte);
    if (byte != NULL && chance(25))
        for (uint32_t k = between(1, 40); k > 0; k--)
            putchar(draw_byte());
    putchar('\n');
}

/* Writes a session in which a line stops short at every place, and goes on from it with every byte. */
void write_ways(void)
{
    static struct way ways[MOST_WAYS];
    size_t count = draw_ways(ways);
    for (size_t k = 0; k < count; k++) {
        write_way(&ways[k], NULL);
        for (uint32_t number = 0; number < 256; number++) {
            uint8_t byte = (uint8_t)number;
            if (byte != '\n')
                write_way(&ways[k], &byte);
        }
    }
}
