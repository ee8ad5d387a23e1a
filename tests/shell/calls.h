/* What the second shell asks about terrain: a file, once, and then paths and masts in it. There are two sets of answers, by the rules of tests/second
 * (calls_rules.c), to compare with, and by the plain C of bench (calls_plain.c), to count instructions beside. */
#ifndef CALLS_H
#define CALLS_H

#include <stddef.h>
#include <stdint.h>

/* A site in the zone of the file that is asked about, in metres. */
struct calls_site {
    uint32_t easting;
    uint32_t northing;
};

/* A path with both masts 0: N and whether it is clear, or a refusal. */
struct calls_path_answer {
    uint32_t refusal;
    uint32_t n;
    uint32_t clear;
};

/* The two masts of a plan, or a refusal. */
struct calls_masts_answer {
    uint32_t refusal;
    uint32_t first;
    uint32_t second;
};

/* Checks a file. Answers its refusal, or 0, and then the calls below are about this file, whose bytes must stay as they are until another passes. */
uint32_t calls_use(const uint8_t *bytes, size_t length, uint32_t base, uint32_t zone);

/* Judges the path between two sites in the file that passed last. */
struct calls_path_answer calls_path(struct calls_site first, struct calls_site second);

/* Plans the masts of two sites within limits of a and b metres in the file that passed last. */
struct calls_masts_answer calls_masts(struct calls_site first, struct calls_site second, uint32_t a, uint32_t b);

#endif
