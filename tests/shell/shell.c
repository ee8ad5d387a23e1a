/* The plan shell of document 02, request e), a second time, in plain C and from the document alone.
 *
 * Usage: shell [FOLDER]. It reads lines from standard input and terrain files from the folder or, without one, from the current folder, and writes an
 * answer for each line to standard output. What a file, a path and masts come to, it asks of calls.h.
 *
 * Input is read into one buffer, and each line is parsed in place. Of a line that goes on beyond the buffer at most 48 bytes are moved to its front, since
 * no legal line has more than 47. Answers are collected, and written where there may be no room for another and before every read. */
#define _POSIX_C_SOURCE 200809L
#include "shell.h"

#include <fcntl.h>
#include <stdbool.h>
#include <stdint.h>
#include <stdio.h>
#include <stdlib.h>
#include <string.h>
#include <unistd.h>

#include "calls.h"

/* Bytes of each of the two buffers, more bytes than an answer has, and one byte more than a legal line has. */
#define BUFFER 65536
#define ANSWER_ROOM 32
#define MOST_KEPT 48

/* A NAME, with bytes of 0 behind it. */
struct name {
    uint8_t bytes[MOST_NAME];
};

/* A site that is held. */
struct site {
    struct name name;
    struct calls_site at;
};

/* What a session knows: its sites, room for the file in use and for the next, which of the two is spare, and whether a file is in use. */
static struct site sites[MOST_SITES];
static uint32_t site_count;
static uint8_t files[2][MOST_FILE + 1];
static unsigned spare;
static bool in_use;

static int folder = AT_FDCWD;
static uint8_t input[BUFFER];
static uint8_t output[BUFFER];

/* What is left of a line. */
struct text {
    const uint8_t *at;
    const uint8_t *end;
};

/* Ends the program after an error of the system. */
static void fail(const char *what)
{
    perror(what);
    exit(1);
}

/* Writes the answers before `out`, and answers where the next is put. */
static uint8_t *flush(uint8_t *out)
{
    const uint8_t *at = output;
    while (at < out) {
        ssize_t count = write(STDOUT_FILENO, at, (size_t)(out - at));
        if (count < 0)
            fail("shell: standard output");
        at += count;
    }
    return output;
}

/* Whether a byte from least to most is next in a line. */
static inline bool next_is(const struct text *text, uint8_t least, uint8_t most)
{
    return text->at < text->end && least <= *text->at && *text->at <= most;
}

/* Passes a byte from least to most; false where another stands there. All that passes parts of a line answers so, and stops at the first byte that does
 * not fit. */
static inline bool pass_between(struct text *text, uint8_t least, uint8_t most)
{
    if (!next_is(text, least, most))
        return false;
    text->at++;
    return true;
}

/* Passes a byte. */
static inline bool pass(struct text *text, char byte)
{
    return pass_between(text, (uint8_t)byte, (uint8_t)byte);
}

/* Passes a word. */
static inline bool pass_word(struct text *text, const char *word)
{
    for (; *word != '\0'; word++) {
        if (!pass(text, *word))
            return false;
    }
    return true;
}

/* Passes a NAME4, which is N, a letter from A to U, and 01 to 60, and gives the base and the zone that it says. */
static inline bool pass_file_name(struct text *text, uint32_t *base, uint32_t *zone)
{
    const uint8_t *start = text->at;
    if (!pass(text, 'N') || !pass_between(text, 'A', 'U') || !pass_between(text, '0', '6'))
        return false;
    if (!pass_between(text, start[2] == '0' ? '1' : '0', start[2] == '6' ? '0' : '9'))
        return false;
    *base = 4u * (start[1] - 'A');
    *zone = 10u * (start[2] - '0') + (start[3] - '0');
    return true;
}

/* Whether a byte of a NAME after its first is next. */
static inline bool next_in_name(const struct text *text)
{
    return next_is(text, 'A', 'Z') || next_is(text, '0', '9') || next_is(text, '-', '-');
}

/* Passes a NAME: a capital letter, then up to 11 capitals, digits or hyphens. */
static inline bool pass_name(struct text *text, struct name *name)
{
    size_t length = 0;
    if (!next_is(text, 'A', 'Z'))
        return false;
    memset(name->bytes, 0, MOST_NAME);
    while (length < MOST_NAME && next_in_name(text))
        name->bytes[length++] = *text->at++;
    return true;
}

/* Passes a number: 0, or 1 to 7 digits of which the first is not 0. */
static inline bool pass_number(struct text *text, uint32_t *number)
{
    *number = 0;
    if (pass(text, '0'))
        return true;
    if (!next_is(text, '1', '9'))
        return false;
    for (int digits = 0; digits < MOST_DIGITS && next_is(text, '0', '9'); digits++)
        *number = 10 * *number + (uint32_t)(*text->at++ - '0');
    return true;
}

/* Passes two numbers with a space between. */
static inline bool pass_numbers(struct text *text, uint32_t *first, uint32_t *second)
{
    return pass_number(text, first) && pass(text, ' ') && pass_number(text, second);
}

/* Passes two names with a space between. */
static inline bool pass_names(struct text *text, struct name *first, struct name *second)
{
    return pass_name(text, first) && pass(text, ' ') && pass_name(text, second);
}

/* Whether a line ends here. */
static inline bool ends(const struct text *text)
{
    return text->at == text->end;
}

/* Puts text behind the answers, and answers where the next is put, as all do that put something. */
static inline uint8_t *put_text(uint8_t *out, const char *text, size_t length)
{
    memcpy(out, text, length);
    return out + length;
}

/* Puts a number of at most three digits. */
static inline uint8_t *put_number(uint8_t *out, uint32_t number)
{
    if (number >= 100) {
        *out++ = (uint8_t)('0' + number / 100);
        number %= 100;
        *out++ = (uint8_t)('0' + number / 10);
    } else if (number >= 10)
        *out++ = (uint8_t)('0' + number / 10);
    *out++ = (uint8_t)('0' + number % 10);
    return out;
}

/* Puts a word and a number, which are an answer. */
static inline uint8_t *put_one(uint8_t *out, const char *text, size_t length, uint32_t number)
{
    out = put_number(put_text(out, text, length), number);
    *out++ = '\n';
    return out;
}

/* Puts a word and two numbers, which are an answer. */
static inline uint8_t *put_two(uint8_t *out, const char *text, size_t length, uint32_t first, uint32_t second)
{
    out = put_number(put_text(out, text, length), first);
    return put_one(out, " ", 1, second);
}

/* Puts `refused` and the number. */
static uint8_t *put_refused(uint8_t *out, uint32_t refusal)
{
    return put_one(out, "refused ", 8, refusal);
}

/* Puts `bad` and the column. */
static inline uint8_t *put_bad(uint8_t *out, size_t column)
{
    return put_one(out, "bad ", 4, (uint32_t)column);
}

/* The site that has a name, or null where none has it. */
static inline struct site *find_site(const struct name *name)
{
    for (uint32_t i = 0; i < site_count; i++) {
        if (memcmp(sites[i].name.bytes, name->bytes, MOST_NAME) == 0)
            return &sites[i];
    }
    return NULL;
}

/* Loads a file of the folder into the spare room, one byte more than it may have at most, and answers how many bytes were loaded; below 0 where it
 * cannot be read. */
static ssize_t load(const char *name)
{
    size_t length = 0;
    ssize_t count = 1;
    int file = openat(folder, name, O_RDONLY | O_CLOEXEC);
    if (file < 0)
        return -1;
    while (count > 0 && length <= MOST_FILE) {
        count = read(file, files[spare] + length, MOST_FILE + 1 - length);
        length += count > 0 ? (size_t)count : 0;
    }
    close(file);
    return count < 0 ? -1 : (ssize_t)length;
}

/* Answers `use`: loads the file that is named and checks it. One that is refused leaves the earlier file in use. */
static uint8_t *use_file(uint8_t *out, uint32_t base, uint32_t zone)
{
    const char name[] = {'N', (char)('A' + base / 4), (char)('0' + zone / 10), (char)('0' + zone % 10), '\0'};
    ssize_t length = load(name);
    uint32_t refusal = length < 0 || length > MOST_FILE ? 1 : calls_use(files[spare], (size_t)length, base, zone);
    if (refusal != 0)
        return put_refused(out, refusal);
    spare = 1 - spare;
    in_use = true;
    return put_two(out, "use ", 4, base, zone);
}

/* Answers `site`: `taken` where a site has the name, `full`, or how many sites are held with this one. */
static inline uint8_t *add_site(uint8_t *out, const struct name *name, struct calls_site at)
{
    if (find_site(name) != NULL)
        return put_text(out, "taken\n", 6);
    if (site_count == MOST_SITES)
        return put_text(out, "full\n", 5);
    sites[site_count++] = (struct site){.name = *name, .at = at};
    return put_one(out, "site ", 5, site_count);
}

/* Answers `path` for two sites, in the file in use. */
static inline uint8_t *judge_path(uint8_t *out, struct calls_site first, struct calls_site second)
{
    struct calls_path_answer path = calls_path(first, second);
    if (path.refusal != 0)
        return put_refused(out, path.refusal);
    out = put_number(put_text(out, "path ", 5), path.n);
    return path.clear ? put_text(out, " clear\n", 7) : put_text(out, " blocked\n", 9);
}

/* Answers `masts` for two sites, in the file in use. */
static inline uint8_t *plan_masts(uint8_t *out, struct calls_site first, struct calls_site second, uint32_t a, uint32_t b)
{
    struct calls_masts_answer masts = calls_masts(first, second, a, b);
    if (masts.refusal != 0)
        return put_refused(out, masts.refusal);
    return put_two(out, "masts ", 6, masts.first, masts.second);
}

/* The sites of two names. Where a name has none, or no file is in use, this is answered instead, and false comes back. */
static inline bool find_ends(uint8_t **out, const struct name *first, const struct name *second, struct calls_site at[2])
{
    const struct site *one = find_site(first), *other = find_site(second);
    if (one == NULL || other == NULL)
        *out = put_text(*out, "unknown\n", 8);
    else if (!in_use)
        *out = put_refused(*out, 1);
    else {
        at[0] = one->at;
        at[1] = other->at;
        return true;
    }
    return false;
}

/* Reads and answers a line `use`. Where it is not legal null comes back, and it stopped at the first byte with which no legal line can begin so. The three
 * below do likewise. */
static inline uint8_t *read_use(struct text *line, uint8_t *out)
{
    uint32_t base, zone;
    if (pass_word(line, "use ") && pass_file_name(line, &base, &zone) && ends(line))
        return use_file(out, base, zone);
    return NULL;
}

/* Reads and answers a line `site`. */
static inline uint8_t *read_site(struct text *line, uint8_t *out)
{
    struct name name;
    struct calls_site site;
    if (pass_word(line, "site ") && pass_name(line, &name) && pass(line, ' ') && pass_numbers(line, &site.easting, &site.northing) && ends(line))
        return add_site(out, &name, site);
    return NULL;
}

/* Reads and answers a line `path`. */
static inline uint8_t *read_path(struct text *line, uint8_t *out)
{
    struct name first, second;
    struct calls_site at[2];
    if (!(pass_word(line, "path ") && pass_names(line, &first, &second) && ends(line)))
        return NULL;
    return find_ends(&out, &first, &second, at) ? judge_path(out, at[0], at[1]) : out;
}

/* Reads and answers a line `masts`. */
static inline uint8_t *read_masts(struct text *line, uint8_t *out)
{
    struct name first, second;
    struct calls_site at[2];
    uint32_t a, b;
    if (!(pass_word(line, "masts ") && pass_names(line, &first, &second) && pass(line, ' ') && pass_numbers(line, &a, &b) && ends(line)))
        return NULL;
    return find_ends(&out, &first, &second, at) ? plan_masts(out, at[0], at[1], a, b) : out;
}

/* Reads and answers a line that is legal, else null comes back. */
static inline uint8_t *read_line(struct text *line, uint8_t *out)
{
    switch (ends(line) ? '\n' : *line->at) {
    case 'u': return read_use(line, out);
    case 's': return read_site(line, out);
    case 'p': return read_path(line, out);
    case 'm': return read_masts(line, out);
    default: return NULL;
    }
}

/* Answers a line of these bytes. */
static inline uint8_t *answer_line(const uint8_t *start, const uint8_t *end, uint8_t *out)
{
    struct text line = {.at = start, .end = end};
    uint8_t *answered = read_line(&line, out);
    return answered != NULL ? answered : put_bad(out, (size_t)(line.at - start) + 1);
}

/* Answers all lines that have their line feed before `end`, and answers where the next answer is put. What there is of a line behind them begins at
 * `*rest`. */
static uint8_t *answer_lines(const uint8_t *end, uint8_t *out, const uint8_t **rest)
{
    const uint8_t *line = input, *feed;
    while ((feed = memchr(line, '\n', (size_t)(end - line))) != NULL) {
        out = answer_line(line, feed, out);
        line = feed + 1;
        if (out > output + BUFFER - ANSWER_ROOM)
            out = flush(out);
    }
    *rest = line;
    return out;
}

/* Answers a session, from its first line to the end of the input. A last line that is not empty is answered without its line feed. */
static void run_session(void)
{
    size_t kept = 0;
    ssize_t count;
    while ((count = read(STDIN_FILENO, input + kept, BUFFER - kept)) > 0) {
        const uint8_t *rest, *end = input + kept + count;
        flush(answer_lines(end, output, &rest));
        kept = (size_t)(end - rest) < MOST_KEPT ? (size_t)(end - rest) : MOST_KEPT;
        memmove(input, rest, kept);
    }
    if (count < 0)
        fail("shell: standard input");
    if (kept > 0)
        flush(answer_line(input, input + kept, output));
}

/* Runs a session over the terrain files of a folder. */
int main(int argc, char **argv)
{
    if (argc > 1 && (folder = open(argv[1], O_RDONLY | O_DIRECTORY | O_CLOEXEC)) < 0)
        fail(argv[1]);
    run_session();
    return 0;
}
