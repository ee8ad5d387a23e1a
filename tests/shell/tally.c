/* Counting what came up in sessions and their answers, and what should have come up and did not. On the way each answer is looked at for its form,
 * and each bad column compared with that of grammar.c. */
#include <inttypes.h>
#include <stdlib.h>
#include <string.h>

#include "sessions.h"

/* Every kind of line and answer that is counted: its name here and its name in the table. */
#define KINDS(K) \
    K(USE_GIVEN, "use: given") \
    K(USE_AGAIN, "use: given for the file in use") \
    K(USE_MOST, "use: given for 60 records") \
    K(USE_LEAST, "use: given for 6 records") \
    K(USE_KEPT, "use: refused, with an earlier file in use") \
    K(USE_NONE, "use: refused, with none in use") \
    K(SITE_GIVEN, "site: held") \
    K(SITE_LAST, "site: held as the 32nd") \
    K(SITE_LONG, "site: held with a name of 12 bytes") \
    K(SITE_ZERO, "site: held with a 0 in it") \
    K(SITE_DIGITS, "site: held with 7 digits in it") \
    K(SITE_TAKEN, "site: taken") \
    K(SITE_TAKEN_FULL, "site: taken, with 32 held") \
    K(SITE_FULL, "site: full") \
    K(PATH_CLEAR, "path: clear") \
    K(PATH_BLOCKED, "path: blocked") \
    K(PATH_STEP, "path: N = 1") \
    K(PATH_LONGEST, "path: N = 200") \
    K(PATH_KEPT, "path: given after a use that was refused") \
    K(PATH_ZONE, "path: given after one in another zone") \
    K(PATH_OTHERWISE, "path: given otherwise than in another zone") \
    K(PATH_1, "path: refused 1, before any use") \
    K(PATH_4, "path: refused 4") \
    K(PATH_5, "path: refused 5") \
    K(PATH_6, "path: refused 6") \
    K(PATH_7_NAME, "path: refused 7, one name twice") \
    K(PATH_7_POINT, "path: refused 7, two names of one point") \
    K(PATH_7_FAR, "path: refused 7, too far") \
    K(MASTS_NEITHER, "masts: 0 0") \
    K(MASTS_FIRST, "masts: only the first above 0") \
    K(MASTS_SECOND, "masts: only the second above 0") \
    K(MASTS_BOTH, "masts: both above 0") \
    K(MASTS_KEPT, "masts: given after a use that was refused") \
    K(MASTS_1, "masts: refused 1, before any use") \
    K(MASTS_4, "masts: refused 4") \
    K(MASTS_5, "masts: refused 5") \
    K(MASTS_6, "masts: refused 6") \
    K(MASTS_7, "masts: refused 7") \
    K(MASTS_8, "masts: refused 8") \
    K(MASTS_8_FIRST, "masts: refused 8 for the first limit alone") \
    K(MASTS_8_SECOND, "masts: refused 8 for the second limit alone") \
    K(MASTS_9, "masts: refused 9") \
    K(UNKNOWN_FIRST, "unknown: the first name alone") \
    K(UNKNOWN_SECOND, "unknown: the second name alone") \
    K(UNKNOWN_BOTH, "unknown: both names") \
    K(UNKNOWN_UNUSED, "unknown: before any use") \
    K(UNKNOWN_FULL, "unknown: a name that came when full") \
    K(BAD_EMPTY, "bad: an empty line") \
    K(BAD_1, "bad: in column 1") \
    K(BAD_48, "bad: in column 48") \
    K(BAD_SHORT, "bad: past the end") \
    K(BAD_RETURN, "bad: a carriage return behind a legal line") \
    K(BAD_TAB, "bad: a tab") \
    K(BAD_SPACE, "bad: a space behind a legal line") \
    K(BAD_NUL, "bad: a byte 0") \
    K(BAD_HIGH, "bad: a byte from 128 on") \
    K(BAD_THIRTEEN, "bad: a name of 13 bytes") \
    K(BAD_EIGHT, "bad: a number of 8 digits") \
    K(BAD_ZERO, "bad: a 0 before a digit") \
    K(BAD_VERY_LONG, "bad: a line of a million bytes") \
    K(BAD_LEGAL_LONG, "bad: a legal line and a million bytes") \
    K(LAST_FEED, "last line with a line feed") \
    K(LAST_LEGAL, "last line without one, legal") \
    K(LAST_BAD, "last line without one, bad")

#define KIND_ENUM(name, text) name,
#define KIND_TEXT(name, text) text,
#define FAULT_TEXT(name, text, refusal) text,
#define FAULT_REFUSAL(name, text, refusal) refusal,
enum kind { KINDS(KIND_ENUM) KIND_COUNT };

static const char *const kind_texts[KIND_COUNT] = {KINDS(KIND_TEXT)};
static const char *const fault_texts[FAULT_KINDS] = {FAULTS(FAULT_TEXT)};
static const uint32_t fault_refusals[FAULT_KINDS] = {FAULTS(FAULT_REFUSAL)};
static uint64_t kinds[KIND_COUNT];

/* How often a file of the folder was to be used, how often one that is not there, and how often a path or masts were given in a file. */
static uint64_t uses[64];
static uint64_t uses_of_none;
static uint64_t links[64];

/* How often a line went bad at a place of the grammar by a byte, and by its end. */
static uint64_t by_byte[COMMANDS][MOST_PARTS][MOST_STEPS];
static uint64_t by_end[COMMANDS][MOST_PARTS][MOST_STEPS];

/* How many lines, bad ones and refused ones there were. */
static uint64_t line_count;
static uint64_t bad_count;
static uint64_t refused_count;

/* Bytes from which a line is very long. */
#define VERY_LONG 1000000

/* A legal line in its parts: names and numbers, as text. */
struct parts {
    char words[5][MOST_NAME + 1];
    uint32_t count;
};

/* A site that is held, and a name that there was no room for. */
struct site {
    char name[MOST_NAME + 1];
    char easting[MOST_DIGITS + 1];
    char northing[MOST_DIGITS + 1];
};

/* What is known of the session: its sites, the last name refused because it was full, the name of the file in use, whether a `use` was refused since,
 * and the last path that was given, with its file. */
static struct site sites[MOST_SITES];
static uint32_t site_count;
static char crowded[MOST_NAME + 1];
static char in_use[FILE_NAME + 1];
static bool refused_since;
static char last_path[64];
static char last_answer[64];
static char last_file[FILE_NAME + 1];

/* Counts a kind where it holds. */
static void count_if(bool holds, enum kind kind)
{
    if (holds)
        kinds[kind]++;
}

/* Ends the program and says what is wrong with an answer. */
static void wrong(const char *what, struct bytes line, const char *answer)
{
    printf("FAIL: %s: %s, to the line %.*s\n", what, answer, (int)(line.length < 100 ? line.length : 100), (const char *)line.start);
    exit(1);
}

/* The next line of some bytes, without its line feed, which are then the rest; false where there is none. */
bool next_line(struct bytes *rest, struct bytes *line)
{
    if (rest->length == 0)
        return false;
    uint8_t *feed = memchr(rest->start, '\n', rest->length);
    size_t length = feed == NULL ? rest->length : (size_t)(feed - rest->start);
    *line = (struct bytes){.start = rest->start, .length = length};
    rest->start += length + (feed != NULL);
    rest->length -= length + (feed != NULL);
    return true;
}

/* The parts of a legal line, or the first of an answer. */
static struct parts split(const char *text)
{
    struct parts parts = {0};
    while (parts.count < 5) {
        size_t length = strcspn(text, " ");
        if (length > MOST_NAME)
            break;
        memcpy(parts.words[parts.count++], text, length);
        if (text[length] == '\0')
            break;
        text += length + 1;
    }
    return parts;
}

/* The site that has a name, null where none has it. */
static const struct site *site_named(const char *name)
{
    for (uint32_t k = 0; k < site_count; k++)
        if (strcmp(sites[k].name, name) == 0)
            return &sites[k];
    return NULL;
}

/* Counts a line `use` with its answer. */
static void tally_use(const struct parts *line, const struct parts *answer)
{
    const char *name = line->words[1];
    const struct terrain *terrain = terrain_named((const uint8_t *)name);
    enum fault fault = fault_named((const uint8_t *)name);
    bool given = strcmp(answer->words[0], "use") == 0;
    if ((given ? 0 : (uint32_t)atoi(answer->words[1])) != fault_refusals[fault]) {
        printf("FAIL: use %s, %s: %s %s\n", name, fault_texts[fault], answer->words[0], answer->words[1]);
        exit(1);
    }
    if (fault == MISSING)
        uses_of_none++;
    else
        uses[terrain - terrains]++;
    count_if(given, USE_GIVEN);
    count_if(given && strcmp(name, in_use) == 0, USE_AGAIN);
    count_if(given && terrain != NULL && terrain->where == SOUTH && terrain->percent_left_out == 0, USE_MOST);
    count_if(given && terrain != NULL && terrain->where == NOWHERE, USE_LEAST);
    count_if(!given && in_use[0] != '\0', USE_KEPT);
    count_if(!given && in_use[0] == '\0', USE_NONE);
    refused_since = !given;
    if (given)
        strcpy(in_use, name);
}

/* Counts a line `site` with its answer. */
static void tally_site(const struct parts *line, const struct parts *answer)
{
    bool given = strcmp(answer->words[0], "site") == 0;
    bool taken = strcmp(answer->words[0], "taken") == 0;
    const char *easting = line->words[2], *northing = line->words[3];
    count_if(given, SITE_GIVEN);
    count_if(given && strlen(line->words[1]) == MOST_NAME, SITE_LONG);
    count_if(given && (strcmp(easting, "0") == 0 || strcmp(northing, "0") == 0), SITE_ZERO);
    count_if(given && strlen(northing) == MOST_DIGITS, SITE_DIGITS);
    count_if(taken, SITE_TAKEN);
    count_if(taken && site_count == MOST_SITES, SITE_TAKEN_FULL);
    count_if(!given && !taken, SITE_FULL);
    if (!given && !taken)
        strcpy(crowded, line->words[1]);
    if (!given || site_count == MOST_SITES)
        return;
    strcpy(sites[site_count].name, line->words[1]);
    strcpy(sites[site_count].easting, easting);
    strcpy(sites[site_count].northing, northing);
    site_count++;
    count_if(site_count == MOST_SITES, SITE_LAST);
}

/* Counts a line `path` or `masts` for which a name was unknown. */
static void tally_unknown(const struct parts *line)
{
    bool first = site_named(line->words[1]) == NULL, second = site_named(line->words[2]) == NULL;
    count_if(first && !second, UNKNOWN_FIRST);
    count_if(second && !first, UNKNOWN_SECOND);
    count_if(first && second, UNKNOWN_BOTH);
    count_if(in_use[0] == '\0', UNKNOWN_UNUSED);
    count_if(strcmp(line->words[1], crowded) == 0 || strcmp(line->words[2], crowded) == 0, UNKNOWN_FULL);
}

/* Whether two sites that are held lie at one point. */
static bool one_point(const struct parts *line)
{
    const struct site *first = site_named(line->words[1]), *second = site_named(line->words[2]);
    if (first == NULL || second == NULL)
        return false;
    return strcmp(first->easting, second->easting) == 0 && strcmp(first->northing, second->northing) == 0;
}

/* Counts a line `path` that was refused. */
static void tally_refused_path(const struct parts *line, int refusal)
{
    bool one_name = strcmp(line->words[1], line->words[2]) == 0;
    count_if(refusal == 1, PATH_1);
    count_if(refusal == 4, PATH_4);
    count_if(refusal == 5, PATH_5);
    count_if(refusal == 6, PATH_6);
    count_if(refusal == 7 && one_name, PATH_7_NAME);
    count_if(refusal == 7 && !one_name && one_point(line), PATH_7_POINT);
    count_if(refusal == 7 && !one_point(line), PATH_7_FAR);
}

/* Counts a line `path` that was given, with its text and that of its answer. */
static void tally_given_path(const char *line, const char *text, const struct parts *answer)
{
    bool again = strcmp(line, last_path) == 0 && strcmp(in_use, last_file) != 0;
    count_if(strcmp(answer->words[2], "clear") == 0, PATH_CLEAR);
    count_if(strcmp(answer->words[2], "blocked") == 0, PATH_BLOCKED);
    count_if(strcmp(answer->words[1], "1") == 0, PATH_STEP);
    count_if(strcmp(answer->words[1], "200") == 0, PATH_LONGEST);
    count_if(refused_since, PATH_KEPT);
    count_if(last_file[0] != '\0' && strcmp(in_use + 2, last_file + 2) != 0, PATH_ZONE);
    count_if(again && strcmp(text, last_answer) != 0, PATH_OTHERWISE);
    snprintf(last_path, sizeof last_path, "%s", line);
    snprintf(last_answer, sizeof last_answer, "%s", text);
    strcpy(last_file, in_use);
}

/* Counts a line `masts` that was refused. */
static void tally_refused_masts(const struct parts *line, int refusal)
{
    bool first = atoi(line->words[3]) > 100, second = atoi(line->words[4]) > 100;
    count_if(refusal == 1, MASTS_1);
    count_if(refusal == 4, MASTS_4);
    count_if(refusal == 5, MASTS_5);
    count_if(refusal == 6, MASTS_6);
    count_if(refusal == 7, MASTS_7);
    count_if(refusal == 8, MASTS_8);
    count_if(refusal == 8 && first && !second, MASTS_8_FIRST);
    count_if(refusal == 8 && second && !first, MASTS_8_SECOND);
    count_if(refusal == 9, MASTS_9);
}

/* Counts a line `masts` that was given. */
static void tally_given_masts(const struct parts *answer)
{
    bool first = strcmp(answer->words[1], "0") != 0, second = strcmp(answer->words[2], "0") != 0;
    count_if(!first && !second, MASTS_NEITHER);
    count_if(first && !second, MASTS_FIRST);
    count_if(!first && second, MASTS_SECOND);
    count_if(first && second, MASTS_BOTH);
    count_if(refused_since, MASTS_KEPT);
}

/* The word with which a line `path` or `masts` is answered that is given. */
static const char *line_word(enum command command)
{
    return command == PATH ? "path" : "masts";
}

/* Counts a legal line with its answer. */
static void tally_legal(enum command command, const char *line, const char *text)
{
    struct parts parts = split(line), answer = split(text);
    bool refused = strcmp(answer.words[0], "refused") == 0;
    int refusal = atoi(answer.words[1]);
    bool linked = (command == PATH || command == MASTS) && strcmp(answer.words[0], line_word(command)) == 0;
    refused_count += refused;
    if (linked && in_use[0] != '\0')
        links[terrain_named((const uint8_t *)in_use) - terrains]++;
    if (command == USE)
        tally_use(&parts, &answer);
    else if (command == SITE)
        tally_site(&parts, &answer);
    else if (strcmp(answer.words[0], "unknown") == 0)
        tally_unknown(&parts);
    else if (command == PATH && refused)
        tally_refused_path(&parts, refusal);
    else if (command == PATH)
        tally_given_path(line, text, &answer);
    else if (refused)
        tally_refused_masts(&parts, refusal);
    else
        tally_given_masts(&answer);
}

/* Counts what kind of byte a line went bad by, behind what begins a legal line or is one. */
static void tally_bad_byte(struct bytes line, const struct walk *walk)
{
    uint8_t byte = line.start[walk->length];
    bool behind_legal = walk_line(line.start, walk->length).legal;
    bool digit = byte >= '0' && byte <= '9', capital = byte >= 'A' && byte <= 'Z';
    count_if(walk->part == NAME_PART && walk->place.step == MOST_NAME && capital, BAD_THIRTEEN);
    count_if(walk->part == NUMBER_PART && walk->place.step == MOST_DIGITS && digit, BAD_EIGHT);
    count_if(walk->part == NUMBER_PART && walk->place.step == BEHIND_ZERO && digit, BAD_ZERO);
    count_if(byte == '\r' && behind_legal && line.length == walk->length + 1, BAD_RETURN);
    count_if(byte == ' ' && behind_legal, BAD_SPACE);
    count_if(byte == '\t', BAD_TAB);
    count_if(byte == 0, BAD_NUL);
    count_if(byte >= 128, BAD_HIGH);
    count_if(behind_legal && line.length >= VERY_LONG, BAD_LEGAL_LONG);
}

/* Counts a bad line. */
static void tally_bad(struct bytes line, const struct walk *walk)
{
    const struct place *place = &walk->place;
    bad_count++;
    (walk->length < line.length ? by_byte : by_end)[place->command][place->part][place->step]++;
    count_if(line.length == 0, BAD_EMPTY);
    count_if(walk->length == 0, BAD_1);
    count_if(walk->length == LONGEST_LINE, BAD_48);
    count_if(line.length > 0 && walk->length == line.length, BAD_SHORT);
    count_if(line.length >= VERY_LONG, BAD_VERY_LONG);
    if (walk->length < line.length)
        tally_bad_byte(line, walk);
}

/* Looks at a line with its answer: a bad one must have the column of the grammar, and no other may be bad. */
static void tally_line(struct bytes line, const char *answer)
{
    char text[LONGEST_LINE + 1], bad[32];
    struct walk walk = walk_line(line.start, line.length);
    snprintf(bad, sizeof bad, "bad %zu", walk.length + 1);
    line_count++;
    if (walk.legal == (strncmp(answer, "bad", 3) == 0) || (!walk.legal && strcmp(answer, bad) != 0))
        wrong("by the grammar a line is bad otherwise", line, answer);
    if (!walk.legal) {
        tally_bad(line, &walk);
        return;
    }
    memcpy(text, line.start, line.length);
    text[line.length] = '\0';
    tally_legal(walk.place.command, text, answer);
}

/* Forgets what is known of a session. */
static void start_session(void)
{
    site_count = 0;
    refused_since = false;
    crowded[0] = in_use[0] = last_path[0] = last_answer[0] = last_file[0] = '\0';
}

/* Counts the lines of a session with their answers, of which there must be as many. */
void tally_session(struct bytes session, struct bytes answers)
{
    struct bytes line, answer;
    bool feed = session.length > 0 && session.start[session.length - 1] == '\n';
    start_session();
    while (next_line(&session, &line)) {
        char text[32];
        if (!next_line(&answers, &answer) || answer.length >= sizeof text)
            wrong("an answer is missing or too long", line, "");
        memcpy(text, answer.start, answer.length);
        text[answer.length] = '\0';
        tally_line(line, text);
        bool last = session.length == 0;
        count_if(last && feed, LAST_FEED);
        count_if(last && !feed && strncmp(text, "bad", 3) != 0, LAST_LEGAL);
        count_if(last && !feed && strncmp(text, "bad", 3) == 0, LAST_BAD);
    }
    if (answers.length > 0)
        wrong("there are more answers than lines", (struct bytes){0}, "");
}

/* Prints all that was counted, but for the places of the grammar. */
void print_tally(void)
{
    printf("%-46s %8s\n", "kind of line and answer", "times");
    for (int kind = 0; kind < KIND_COUNT; kind++)
        printf("%-46s %8" PRIu64 "\n", kind_texts[kind], kinds[kind]);
    printf("\n%-5s %-40s %8s %8s\n", "file", "fault", "use", "given in");
    for (uint32_t k = 0; k < terrain_count; k++)
        printf("%-5s %-40s %8" PRIu64 " %8" PRIu64 "\n", terrains[k].name, fault_texts[terrains[k].fault], uses[k], links[k]);
    printf("%-5s %-40s %8" PRIu64 "\n\n", "other", fault_texts[MISSING], uses_of_none);
}

/* Prints how many lines were looked at, and the chief of what was counted. */
void print_summary(void)
{
    uint64_t paths = kinds[PATH_CLEAR] + kinds[PATH_BLOCKED];
    uint64_t masts = kinds[MASTS_NEITHER] + kinds[MASTS_FIRST] + kinds[MASTS_SECOND] + kinds[MASTS_BOTH];
    uint64_t unknown = kinds[UNKNOWN_FIRST] + kinds[UNKNOWN_SECOND] + kinds[UNKNOWN_BOTH];
    printf("%" PRIu64 " lines: %" PRIu64 " use, %" PRIu64 " site, %" PRIu64 " path, %" PRIu64 " masts, %" PRIu64 " taken, %" PRIu64 " full, %" PRIu64
           " unknown, %" PRIu64 " refused, %" PRIu64 " bad\n",
           line_count, kinds[USE_GIVEN], kinds[SITE_GIVEN], paths, masts, kinds[SITE_TAKEN], kinds[SITE_FULL], unknown, refused_count, bad_count);
}

/* Prints that something never came up where its count is 0, and answers whether it did not. */
static bool lacks(uint64_t count, const char *what, const char *which)
{
    if (count == 0)
        printf("FAIL: never came up: %s %s\n", what, which);
    return count == 0;
}

/* Says at which place of the grammar no line went bad, by a byte or, where no legal line ends there, by its end. */
static bool places_lack(void)
{
    static struct way ways[MOST_WAYS];
    size_t count = draw_ways(ways);
    bool any = false;
    for (size_t k = 0; k < count; k++) {
        struct walk walk = walk_line(ways[k].bytes, ways[k].length);
        const struct place *at = &walk.place;
        char way[LONGEST_LINE + 2];
        snprintf(way, sizeof way, "%.*s", (int)ways[k].length, (const char *)ways[k].bytes);
        any |= lacks(by_byte[at->command][at->part][at->step], "a byte that does not fit, behind what is like", way);
        if (!walk.legal)
            any |= lacks(by_end[at->command][at->part][at->step], "an end too early, behind what is like", way);
    }
    return any;
}

/* Says what can come up and never did, a line for each, and answers whether there is any. */
bool tally_lacks(void)
{
    bool any = places_lack();
    for (int kind = 0; kind < KIND_COUNT; kind++)
        any |= lacks(kinds[kind], "kind of line and answer,", kind_texts[kind]);
    for (uint32_t k = 0; k < terrain_count; k++) {
        const struct terrain *terrain = &terrains[k];
        if (fault_named((const uint8_t *)terrain->name) == terrain->fault)
            any |= lacks(uses[k], "use of a file,", terrain->name);
        if (terrain->fault == SOUND && terrain->where != NOWHERE)
            any |= lacks(links[k], "path or masts given in a file,", terrain->name);
    }
    return lacks(uses_of_none, "use of a file that is", fault_texts[MISSING]) || any;
}
