/* Counting how the corners of a reading vote. */
#include <stdio.h>

#include "tally.h"

#define CODES 8

/* Readings by the grid lines that the point lies on, none to two, and by how many codes the corners that weigh in have, 1 to 4. */
static uint64_t votes[3][4];

/* The corners SW, SE, NW, NE that weigh in and have the code, a bit for each. */
static uint32_t having(const struct rules_corner corners[4], uint64_t code)
{
    uint32_t some = 0;
    for (int k = 0; k < 4; k++)
        if (corners[k].weight > 0 && corners[k].code == code)
            some |= ONLY(k);
    return some;
}

/* What corners, a bit for each, weigh together. */
static uint64_t weight_of(const struct rules_corner corners[4], uint32_t some)
{
    uint64_t weight = 0;
    for (int k = 0; k < 4; k++)
        weight += some & ONLY(k) ? corners[k].weight : 0;
    return weight;
}

/* How many corners there are among these, a bit for each. */
static int number_of(uint32_t some)
{
    return __builtin_popcount(some);
}

/* Counts how four corners vote that all weigh in and have two codes, of which the south-western one's is that of these. */
static void tally_two(uint32_t some)
{
    count_if(some == (ONLY(0) | ONLY(1)), VOTE_ROWS);
    count_if(some == (ONLY(0) | ONLY(2)), VOTE_COLUMNS);
    count_if(some == (ONLY(0) | ONLY(3)), VOTE_CROSSWISE);
    count_if(number_of(some) != 2, VOTE_THREE);
}

/* Whether a corner that does not weigh in has another code than this, one above 0: a corner that lies past the record stands as code 0. */
static bool weightless_other(const struct rules_corner corners[4], uint64_t code)
{
    bool any = false;
    for (int k = 0; k < 4; k++)
        any = any || (corners[k].weight == 0 && corners[k].code != code && corners[k].code != 0);
    return any;
}

/* The greatest weight of one of these corners, a bit for each. */
static uint64_t heaviest_of(const struct rules_corner corners[4], uint32_t some)
{
    uint64_t weight = 0;
    for (int k = 0; k < 4; k++)
        if ((some & ONLY(k)) != 0 && corners[k].weight > weight)
            weight = corners[k].weight;
    return weight;
}

/* Counts how the corners of a reading vote for its code. */
void tally_vote(const struct rules_corner corners[4], uint64_t code)
{
    uint32_t weighing = 0;
    uint32_t tied = 0;
    int codes = 0;
    uint32_t winning = having(corners, code);
    for (uint64_t other = 0; other < CODES; other++) {
        uint32_t some = having(corners, other);
        weighing |= some;
        codes += some != 0;
        if (weight_of(corners, some) == weight_of(corners, winning))
            tied |= some;
    }
    int lines = number_of(weighing) == 4 ? 0 : number_of(weighing) == 2 ? 1 : 2;
    votes[lines][codes - 1]++;
    if (lines == 0 && codes == 2)
        tally_two(having(corners, corners[0].code));
    count_if(heaviest_of(corners, winning) < heaviest_of(corners, weighing), VOTE_OUTVOTED);
    count_if(tied != winning && lines == 0, VOTE_TIE);
    count_if(tied != winning && lines == 1, VOTE_TIE_ON_LINE);
    count_if(tied != winning && (tied & -tied) != (winning & -winning), VOTE_TIE_LATER);
    count_if(codes == 1 && weightless_other(corners, code), VOTE_AGREED);
}

/* Prints how corners voted. */
void print_votes(void)
{
    printf("\nreadings by the codes of the corners that weigh in\n");
    printf("%-14s %6d %6d %6d %6d\n", "codes", 1, 2, 3, 4);
    print_counts("off the lines", votes[0], 4);
    print_counts("on one line", votes[1], 2);
    print_counts("on two lines", votes[2], 1);
}

/* Says which number of codes never came up off the lines, on one and on two, a line for each, and answers whether there is any. */
bool votes_lack(void)
{
    bool any = false;
    for (int codes = 1; codes <= 4; codes++)
        any |= lacks(votes[0][codes - 1], "reading off the lines,", "codes", codes);
    for (int codes = 1; codes <= 2; codes++)
        any |= lacks(votes[1][codes - 1], "reading on a line,", "codes", codes);
    any |= lacks(votes[2][0], "reading on two lines,", "codes", 1);
    return any;
}
