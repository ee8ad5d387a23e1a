/* Janlishuk: radio links over the CRC 500-metre terrain files.
 *
 * Every call takes any bytes and any numbers: nothing need be checked beforehand, and a call that cannot answer says so in `refusal` and
 * in no other way. No call keeps anything, allocates anything, or writes to the file. Calls may run at the same time in several threads.
 * One call writes to memory that the caller lends, janlishuk_upload; the others only give their answer back.
 *
 * The file. `file` points to the whole terrain file in memory, at any alignment, and `length` is its length in bytes, all of which must
 * be readable. The caller owns the bytes, and lends them for the duration of the call; they must not change while it runs. Where
 * `length` is 0 the pointer is not used, and may be null. `base` is the base latitude that the file is opened with, 0, 4, .. 80, and
 * `zone` its UTM zone, 1 to 60; neither is in the file, but both are in its name (janlishuk_name).
 *
 * Points. Easting and northing are whole metres of the UTM grid, northern hemisphere, and `zone` is the zone that they are of. The
 * ground of a file has eastings from 125,000 to 874,999 and the northings for which janlishuk_base gives its base. It is made of
 * rectangles of 7.5 by 15.5 km, each of which the file covers or not. A height is the weighted mean of the four grid corners, 500 m
 * apart, around the point; a corner of weight 0 does not count.
 *
 * Seams. A point exactly on the seam of two rectangles belongs to the eastern or the northern one. Where that one is not covered, the point
 * is read from the rectangle to the west or to the south, whose record repeats the edge: a tower at the eastern or northern edge of covered
 * land is on it. At a corner of four, west is tried before south, and south before south-west; the first that is covered is taken, and the
 * reading, with its refusal 6, is of that record alone. One metre past the seam a point is not on it. All calls that read follow this.
 *
 * Refusals. `refusal` 0 means that the answer is given. Else it is the first of these that holds, in the order 1, 2, 3, then for a point
 * 4, 5, 6; for a path 4 for the first end, 4 for the second, 7, 8, then 4, 5, 6 at each sample from 0 upward, then 9. Each call says
 * which numbers it can give, and skips the others. janlishuk_spot tries only a part of 3, in two places of the order, which it names. Numbers
 * from 10 on are of document 02, in which customers asked for more calls than the first nine, and each such call says where its own number
 * stands in the order.
 *   1  the length is not 1024 times a number from 6 to 4096
 *   2  the base is not 0, 4, .. 80, or the zone not 1 to 60
 *   3  the index breaks the rules of a file: the highest record number is not from 6 to the record count, or a position holds a number
 *      other than 0 that is below 7, above the highest, in another position too, or where no rectangle is. A file with its name
 *      stamped into its first four bytes breaks them too
 *   4  the point is of another zone, or not on the file's ground; of janlishuk_base: no file has this northing
 *   5  the file covers neither the point's rectangle nor, for a point on a seam, another that shares the point
 *   6  a corner that weighs in at the point has no height
 *   7  the two ends are one point, or more than 100 km apart
 *   8  a mast or mast limit is above 100 m, or the sample that janlishuk_engine_row is asked for is above n
 *   9  no pair of masts within the limits makes the path clear
 *  10  the lists lent to janlishuk_upload do not fit: the two lists of points differ in length or hold more than 256 points, or one of
 *      the other three is shorter than they are
 * `place` is the number of the sample at which a refusal was met, which may be 0; for a refusal that was met at no sample it is 0.
 * Beside a refusal all other fields of the answer are 0. Bytes between the fields are not set, so compare answers by their fields.
 *
 * Surface codes: 0 unknown, 1 trees, 2 bare, 3 fresh water, 4 suburban, 5 marsh, 6 sea water, 7 urban. Where the corners around a
 * point have several, its code is the one whose corners weigh most together, and of two that weigh the same the smaller.
 *
 * The library is x86-64 code, for processors of x86-64-v2, with the System V calling convention. A call needs less than 8 KB of stack
 * and, of the C library, memcpy and memset. Its doubles are those of the rounding mode that a C program starts with; a caller that has
 * changed it gets other last digits. */
#ifndef JANLISHUK_H
#define JANLISHUK_H

#include <stddef.h>
#include <stdint.h>

#ifdef __cplusplus
extern "C" {
#endif

/* Room for the samples of a profile: a path has at most 200 steps, and one sample more. */
#define JANLISHUK_ROOM 201

/* What janlishuk_engine_point calls a point; 0 beside a refusal. */
#define JANLISHUK_LAND 1
#define JANLISHUK_WATER 2

/* Most points that janlishuk_upload reads in one call. */
#define JANLISHUK_MOST_POINTS 256

struct janlishuk_point {
    uint32_t zone;
    uint32_t easting;
    uint32_t northing;
};

struct janlishuk_check_answer {
    uint32_t refusal;
    uint32_t place;
    uint32_t highest;
};

struct janlishuk_name_answer {
    uint32_t refusal;
    uint32_t place;
    uint8_t name[4];
};

struct janlishuk_base_answer {
    uint32_t refusal;
    uint32_t place;
    uint32_t base;
};

struct janlishuk_read_answer {
    uint32_t refusal;
    uint32_t place;
    uint32_t height;
    uint32_t code;
};

struct janlishuk_upload_answer {
    uint32_t refusal;
    uint32_t place;
};

struct janlishuk_engine_point_answer {
    uint32_t refusal;
    uint32_t place;
    uint32_t kind;
    uint32_t code;
    double metres;
};

struct janlishuk_profile_answer {
    uint32_t refusal;
    uint32_t place;
    uint32_t n;
    uint32_t heights[JANLISHUK_ROOM];
    uint8_t codes[JANLISHUK_ROOM];
};

struct janlishuk_verdict_answer {
    uint32_t refusal;
    uint32_t place;
    uint32_t clear;
};

struct janlishuk_plan_answer {
    uint32_t refusal;
    uint32_t place;
    uint32_t first;
    uint32_t second;
};

struct janlishuk_engine_row_answer {
    uint32_t refusal;
    uint32_t place;
    double height;
    double share;
};

/* Checks a file. highest: M, the highest record number that the file states, from 6 to its record count; not every record up to it need
 * be in use, so it does not say how many rectangles are covered. Refusals 1, 2, 3. Every other call that takes a file, but for
 * janlishuk_spot, makes the same check first, so there is no need to call this one before it. */
struct janlishuk_check_answer janlishuk_check(const uint8_t *file, size_t length, uint32_t base, uint32_t zone);

/* The name of the file of a base and a zone. name: four bytes of ASCII with no 0 after them, as NK17. Refusal 2. */
struct janlishuk_name_answer janlishuk_name(uint32_t base, uint32_t zone);

/* The base of the file that a northing, in metres, falls into. Refusal 4, from 9,331,000 m on. */
struct janlishuk_base_answer janlishuk_base(uint32_t northing);

/* Reads the ground at a point. height: in 1/250,000 m, exact, at most 2,047,500,000. code: its surface code. Refusals 1 to 6. */
struct janlishuk_read_answer janlishuk_read(const uint8_t *file, size_t length, uint32_t base, uint32_t zone, struct janlishuk_point point);

/* Reads the ground at one spot without a check of the whole index. It takes the same arguments as janlishuk_read, its answer has the same
 * fields in the same units, and for every file that passes the check the two give the same answer, refusals included. Of the index it looks
 * at the highest record number, and at the positions of the rectangles that the point may be read from, in the order told under Seams, up to
 * the first that holds a number other than 0; at no others, so it costs the same however large the file is. Refusals, in this order: 1, 2, 3
 * where the highest record number is not from 6 to the record count, 4, 3 where that first number is below 7 or above the highest record
 * number, 5, 6; place is 0. An answer, or 4, 5 or 6, does not say that the file passes the check: of a file that is refused with 3, as one
 * with its name stamped into its first bytes, most points may be read.
 *
 * Use janlishuk_read for all that a mast may be built on, since it answers only where the whole index keeps the rules, and no two
 * rectangles name one record. Use janlishuk_spot for a quick look at single points, where the check of the whole index takes too long: it
 * vouches for one entry, not for the file, and may read a record that a damaged index gives to another rectangle too. */
struct janlishuk_read_answer janlishuk_spot(const uint8_t *file, size_t length, uint32_t base, uint32_t zone, struct janlishuk_point point);

/* Reads the points of a survey, at most 256, with one check of the file. eastings and northings: point k is the one with easting
 * eastings[k] and northing northings[k], in metres and of the file's zone; the two lists have the same count, which may be 0. heights,
 * codes and refusals: entry k is what janlishuk_read gives for point k, its height in 1/250,000 m, its surface code and its refusal: 0 for
 * a point that is read, else 4, which here means not on the file's ground, 5 or 6, with height and code 0. A height of 0 may also be read,
 * so look at refusals[k]. A refused point does not stop the others. Refusals of the whole call: 1, 2, 3, then 10; place is 0. A survey of
 * no points is not refused.
 *
 * The lists. Counts and rooms are in entries, not in bytes. The room of heights, codes and refusals is at least the count of the points,
 * else the call is refused with 10, and may be more. All counted entries must be readable, and those of heights, codes and refusals
 * writable. The caller owns all five lists and lends them for the duration of the call. They must overlap neither each other nor the file.
 * The two lists of points are not written, and must not change while the call runs; no other thread may read or write the other three
 * meanwhile, so calls at the same time need lists of their own to fill. Only the entries of the points are written: entries after the last
 * point keep their content, and where `refusal` is not 0 nothing is written at all. What the three held before is never read. A list of no
 * entries may be a null pointer; any other pointer must have the alignment of its type. */
struct janlishuk_upload_answer janlishuk_upload(const uint8_t *file, size_t length, uint32_t base, uint32_t zone, const uint32_t *eastings,
                                                size_t eastings_count, const uint32_t *northings, size_t northings_count,
                                                uint32_t *heights, size_t heights_room, uint8_t *codes, size_t codes_room,
                                                uint8_t *refusals, size_t refusals_room);

/* Reads a point as the prediction engine takes it. kind: land or water (codes 3 and 6). code: its surface code. metres: its height or
 * level in metres, the exact height divided once by 250,000. Refusals 1 to 6. */
struct janlishuk_engine_point_answer janlishuk_engine_point(const uint8_t *file, size_t length, uint32_t base, uint32_t zone,
                                                            struct janlishuk_point point);

/* Reads the ground along the straight line on the grid between two points. n: how many steps of at most 500 m the path has, 1 to 200;
 * its samples are 0 to n, the first at the first end and the last at the second: sample i lies at easting ((n - i) E0 + i E1) / n,
 * truncated, and northing likewise. heights and codes: those of each sample, as janlishuk_read gives them; 0 after sample n. Refusals 1
 * to 7. */
struct janlishuk_profile_answer janlishuk_profile(const uint8_t *file, size_t length, uint32_t base, uint32_t zone,
                                                  struct janlishuk_point first, struct janlishuk_point second);

/* Whether the path is clear with masts of a metres at the first end and b metres at the second, each 0 to 100: whether at each sample
 * between the ends the line between the mast tops is not below the ground and the bulge of an earth of 8,500 km effective radius.
 * Touching is clear, and so is every path of n = 1. Heights are rounded so that a path can only look worse than it is. clear: 1, or 0
 * where it is blocked. Refusals 1 to 8. */
struct janlishuk_verdict_answer janlishuk_verdict(const uint8_t *file, size_t length, uint32_t base, uint32_t zone,
                                                  struct janlishuk_point first, struct janlishuk_point second, uint32_t a, uint32_t b);

/* Plans the two masts of a path. la and lb: the limits of the first and the second mast, 0 to 100 m. first and second: the masts in
 * whole metres, each within its limit, that make the path clear; no clear pair has a smaller sum, nor the same sum with a lower first
 * mast. Refusals 1 to 9. */
struct janlishuk_plan_answer janlishuk_plan(const uint8_t *file, size_t length, uint32_t base, uint32_t zone, struct janlishuk_point first,
                                            struct janlishuk_point second, uint32_t la, uint32_t lb);

/* One sample of a path as the prediction engine takes it. i: the sample, 0 to n. height: in metres, like metres of
 * janlishuk_engine_point, and not in 1/250,000 m. share: its share of the way, i divided once by n. Refusals 1 to 8. */
struct janlishuk_engine_row_answer janlishuk_engine_row(const uint8_t *file, size_t length, uint32_t base, uint32_t zone,
                                                        struct janlishuk_point first, struct janlishuk_point second, uint32_t i);

#ifdef __cplusplus
}
#endif

#endif
