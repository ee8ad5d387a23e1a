/* The calls of janlishuk.h in plain C: the same arguments and the same answers, to count the library's instructions beside; and for the second shell N
 * with the verdict. */
#ifndef PLAIN_H
#define PLAIN_H

#include "janlishuk.h"

struct janlishuk_check_answer plain_check(const uint8_t *file, size_t length, uint32_t base, uint32_t zone);

struct janlishuk_read_answer plain_read(const uint8_t *file, size_t length, uint32_t base, uint32_t zone, struct janlishuk_point point);

struct janlishuk_read_answer plain_spot(const uint8_t *file, size_t length, uint32_t base, uint32_t zone, struct janlishuk_point point);

struct janlishuk_upload_answer plain_upload(const uint8_t *file, size_t length, uint32_t base, uint32_t zone, const uint32_t *eastings,
                                            size_t eastings_count, const uint32_t *northings, size_t northings_count, uint32_t *heights,
                                            size_t heights_room, uint8_t *codes, size_t codes_room, uint8_t *refusals,
                                            size_t refusals_room);

struct janlishuk_profile_answer plain_profile(const uint8_t *file, size_t length, uint32_t base, uint32_t zone,
                                              struct janlishuk_point first, struct janlishuk_point second);

struct janlishuk_verdict_answer plain_verdict(const uint8_t *file, size_t length, uint32_t base, uint32_t zone,
                                              struct janlishuk_point first, struct janlishuk_point second, uint32_t a, uint32_t b);

struct janlishuk_plan_answer plain_plan(const uint8_t *file, size_t length, uint32_t base, uint32_t zone, struct janlishuk_point first,
                                        struct janlishuk_point second, uint32_t la, uint32_t lb);

/* A path without masts: its N and whether it is clear, or a refusal. */
struct plain_sight_answer {
    uint32_t refusal;
    uint32_t n;
    uint32_t clear;
};

struct plain_sight_answer plain_sight(const uint8_t *file, size_t length, uint32_t base, uint32_t zone, struct janlishuk_point first,
                                      struct janlishuk_point second);

/* plain_plan by trying every pair of masts, in order of their sum and then of the first mast. */
struct janlishuk_plan_answer plain_plan_every_pair(const uint8_t *file, size_t length, uint32_t base, uint32_t zone,
                                                   struct janlishuk_point first, struct janlishuk_point second, uint32_t la, uint32_t lb);

#endif
