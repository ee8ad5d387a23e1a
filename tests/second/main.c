/* The second program: makes files and questions, and compares every answer of the library, and all that it leaves in lent lists, with that
 * of the rules of documents 01 and 02. A spot is asked a second time, of a copy in which all that it does not look at is drawn.
 *
 * Usage: second [SEED [COUNT]], with the seed of the drawn numbers and the number of questions, a question being one call compared. The
 * questions of a seed are the same whatever the count. Ends with 1 at the first answer or entry of a list that differs, at a byte of a file
 * that changed, at a touch of memory that was not lent or is not for a spot to look at, where the rules of a spot and those of a reading
 * differ on a file that passes, and, where COUNT is at least 20,000, where something that can come up never did; below that the table is
 * only printed. */
#define _DEFAULT_SOURCE
#include <inttypes.h>
#include <signal.h>
#include <stdio.h>
#include <stdlib.h>
#include <unistd.h>

#include "second.h"

#define DEFAULT_SEED 1992
#define DEFAULT_COUNT 100000
#define COUNT_THAT_MUST_HAVE_ALL 20000
#define QUESTIONS_OF_WHOLE 100
#define QUESTIONS_OF_BAD_ENTRIES 60
#define QUESTIONS_OF_OTHERS 20

static uint64_t seed = DEFAULT_SEED;
static uint64_t count = DEFAULT_COUNT;
static uint64_t asked;
static struct file file;
static struct question question;
static const char *answering = "rules";

/* Prints which question it was, whatever went wrong with it. */
static void print_where(const char *what)
{
    printf("FAIL: %s, seed %" PRIu64 ", question %" PRIu64 "\n", what, seed, asked);
    print_question(&file, &question);
}

/* Ends the run where the file or a list of points was written to, or memory was touched that was not lent, or not for a spot to look at. */
static void on_fault(int number)
{
    printf("signal %d while an answer came from the %s\n", number, answering);
    print_where("the file or a list of points was written to, or memory touched that was not lent, or not for a spot to look at");
    fflush(stdout);
    _exit(1);
}

/* Ends the run where an answer of the library differs from that of the rules. */
static void compare(const char *what, const union answer *library, const union answer *rules)
{
    if (same_answer(question.call, library, rules))
        return;
    print_where(what);
    print_answers(&question, library, rules);
    exit(1);
}

/* Asks one question of both and compares, and a spot also of a copy; ends the run where the answers differ. */
static void ask(void)
{
    static union answer library;
    static union answer rules;
    question = draw_question(&file);
    asked++;
    answering = "library";
    ask_library(&file, &question, &library);
    answering = "rules";
    ask_rules(&file, &question, &rules);
    compare("the answers differ", &library, &rules);
    if (!rules_agree(&file, &question)) {
        print_where("the rules of a spot and those of a reading differ on a file that passes");
        exit(1);
    }
    if (can_ask_blind(&file, &question)) {
        answering = "library, lent a copy in which all that a spot does not look at is drawn";
        ask_blind(&file, &question, &library);
        compare("the answer differs with bytes that a spot does not look at", &library, &rules);
        tally_blind(rules.read.refusal);
    }
    tally_answer(&file, &question, &rules);
}

/* How many questions the file is asked: most where it is whole, and of the damaged most where a spot may still be read. */
static uint32_t questions_of_file(void)
{
    if (file.damage == WHOLE)
        return QUESTIONS_OF_WHOLE;
    return spots_may_differ(&file) ? QUESTIONS_OF_BAD_ENTRIES : QUESTIONS_OF_OTHERS;
}

/* Makes a file, asks its questions, and looks whether its bytes are still what they were. */
static void ask_of_file(uint32_t number)
{
    make_file(&file, number);
    tally_file(&file);
    lend_file(&file);
    for (uint32_t k = questions_of_file(); k > 0 && asked < count; k--)
        ask();
    if (!same_bytes(&file)) {
        print_where("a byte of the file has changed, at this question or one before it");
        exit(1);
    }
    take_back_file(&file);
    take_back_copy();
}

/* The number that an argument says; ends the run where it says none. */
static uint64_t number_of(const char *argument)
{
    char *end;
    uint64_t number = strtoull(argument, &end, 10);
    if (*argument == '\0' || *end != '\0') {
        fprintf(stderr, "usage: second [SEED [COUNT]]\n");
        exit(2);
    }
    return number;
}

/* Asks COUNT questions, prints what came up, and ends with 1 where something went wrong. */
int main(int argc, char **argv)
{
    if (argc > 1)
        seed = number_of(argv[1]);
    if (argc > 2)
        count = number_of(argv[2]);
    signal(SIGSEGV, on_fault);
    signal(SIGBUS, on_fault);
    draw_seed(seed);
    for (uint32_t number = 0; asked < count; number++)
        ask_of_file(number);
    printf("seed %" PRIu64 ": %" PRIu64 " questions, all answers alike\n", seed, asked);
    print_tally();
    if (count >= COUNT_THAT_MUST_HAVE_ALL && tally_lacks())
        return 1;
    return 0;
}
