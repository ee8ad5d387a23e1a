/* Makes a folder of terrain files and sessions about them from a seed, and compares and counts the answers.
 *
 *   sessions folder SEED FOLDER                 makes the folder
 *   sessions session SEED NUMBER LINES          writes session NUMBER, of so many lines
 *   sessions ways SEED                          writes the session in which every byte stands at every place of the grammar
 *   sessions measured SEED KIND LINES           writes a session whose instructions are to be counted
 *   sessions compare SESSION ANSWERS ANSWERS    shows the first line of a session to which the answers differ, and then ends with 1
 *   sessions tally FOLDER COUNT NEEDED          counts what came up in the sessions 0 to COUNT - 1 of a folder, which are FOLDER/session.NUMBER with
 *                                               FOLDER/second.NUMBER, and ends with 1 where something that can come up never did, if NEEDED is 1, or
 *                                               where an answer is wrong by its form
 *
 * The files and sessions of a seed are always the same. */
#include <inttypes.h>
#include <stdlib.h>
#include <string.h>

#include "sessions.h"

/* Bytes of a line that are shown. */
#define SHOWN 120

/* The number that an argument says; ends the program where it says none. */
static uint64_t number_of(const char *argument)
{
    char *end;
    uint64_t number = strtoull(argument, &end, 10);
    if (*argument == '\0' || *end != '\0') {
        fprintf(stderr, "sessions: %s is no number\n", argument);
        exit(2);
    }
    return number;
}

/* The bytes of a file; ends the program where it cannot be read. */
static struct bytes read_file(const char *path)
{
    struct bytes bytes = {0};
    size_t room = 0, count;
    FILE *file = fopen(path, "rb");
    if (file == NULL) {
        perror(path);
        exit(2);
    }
    do {
        room = 2 * room + 65536;
        bytes.start = realloc(bytes.start, room);
        if (bytes.start == NULL)
            abort();
        count = fread(bytes.start + bytes.length, 1, room - bytes.length, file);
        bytes.length += count;
    } while (count > 0);
    fclose(file);
    return bytes;
}

/* Prints a line, its first bytes where it is long, with what is not to be printed as numbers. */
static void show(const char *what, struct bytes line, bool there)
{
    printf("%s: ", what);
    for (size_t k = 0; k < line.length && k < SHOWN; k++) {
        if (line.start[k] < 32 || line.start[k] > 126 || line.start[k] == '\\')
            printf("\\x%02X", line.start[k]);
        else
            putchar(line.start[k]);
    }
    printf("%s\n", !there ? "(none)" : line.length > SHOWN ? " .." : "");
}

/* Whether two lines are the same. */
static bool same(struct bytes one, struct bytes other)
{
    return one.length == other.length && (one.length == 0 || memcmp(one.start, other.start, one.length) == 0);
}

/* Shows the first line to which the answers differ; 0 where there is none. */
static int compare(char **paths)
{
    struct bytes session = read_file(paths[0]), first = read_file(paths[1]), second = read_file(paths[2]);
    if (same(first, second))
        return 0;
    for (uint64_t number = 1;; number++) {
        struct bytes line = {0}, one = {0}, other = {0};
        bool asked = next_line(&session, &line);
        bool has_one = next_line(&first, &one), has_other = next_line(&second, &other);
        bool alike = has_one == has_other && same(one, other);
        if (alike && (has_one || asked))
            continue;
        printf("line %" PRIu64 " of %s, %zu bytes\n", number, paths[0], line.length);
        show("line", line, asked);
        show(paths[1], one, has_one);
        show(paths[2], other, has_other);
        return 1;
    }
}

/* Counts what came up in sessions; 1 where something that is needed did not. */
static int tally(const char *folder, uint64_t count, bool needed)
{
    for (uint64_t number = 0; number < count; number++) {
        char session[4096], second[4096];
        snprintf(session, sizeof session, "%s/session.%" PRIu64, folder, number);
        snprintf(second, sizeof second, "%s/second.%" PRIu64, folder, number);
        struct bytes lines = read_file(session), answers = read_file(second);
        tally_session(lines, answers);
        free(lines.start);
        free(answers.start);
    }
    print_tally();
    bool lack = tally_lacks();
    print_summary();
    return needed && lack ? 1 : 0;
}

/* Does what the arguments ask; 2 where they ask nothing. */
int main(int argc, char **argv)
{
    const char *asked = argc > 2 ? argv[1] : "";
    if (strcmp(asked, "compare") == 0 && argc == 5)
        return compare(argv + 2);
    if (strcmp(asked, "tally") == 0 && argc == 5)
        return tally(argv[2], number_of(argv[3]), number_of(argv[4]) == 1);
    if (argc > 2)
        draw_seed(number_of(argv[2]));
    if (strcmp(asked, "folder") == 0 && argc == 4)
        make_folder(argv[3]);
    else if (strcmp(asked, "session") == 0 && argc == 5) {
        uint64_t number = number_of(argv[3]);
        draw_seed(number_of(argv[2]) + (number + 1) * 1000003);
        write_session((uint32_t)number, (uint32_t)number_of(argv[4]));
    } else if (strcmp(asked, "ways") == 0 && argc == 3)
        write_ways();
    else if (strcmp(asked, "measured") == 0 && argc == 5) {
        if (!write_measured(argv[3], (uint32_t)number_of(argv[4])))
            return 2;
    } else {
        fputs("usage: sessions folder, session, ways, measured, compare or tally, each with its arguments\n", stderr);
        return 2;
    }
    return fflush(stdout) == 0 ? 0 : 2;
}
