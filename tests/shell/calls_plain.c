/* The shell's questions answered by the plain C of bench. Each line that asks about the file checks its index once, as every call of the library does. */
#include "calls.h"
#include "plain.h"

/* The file that passed last, with the base and zone of its name. */
static const uint8_t *file;
static size_t file_length;
static uint32_t file_base, file_zone;

/* A site as a point in the zone of the file. */
static struct janlishuk_point point_of(struct calls_site site)
{
    return (struct janlishuk_point){.zone = file_zone, .easting = site.easting, .northing = site.northing};
}

/* The refusal of the file's check, or 0 and the file is kept. */
uint32_t calls_use(const uint8_t *bytes, size_t length, uint32_t base, uint32_t zone)
{
    uint32_t refusal = plain_check(bytes, length, base, zone).refusal;
    if (refusal == 0) {
        file = bytes;
        file_length = length;
        file_base = base;
        file_zone = zone;
    }
    return refusal;
}

/* N of the path and the verdict with both masts 0, or the verdict's refusal. */
struct calls_path_answer calls_path(struct calls_site first, struct calls_site second)
{
    struct plain_sight_answer path = plain_sight(file, file_length, file_base, file_zone, point_of(first), point_of(second));
    return (struct calls_path_answer){.refusal = path.refusal, .n = path.n, .clear = path.clear};
}

/* The masts of the plan, or its refusal. */
struct calls_masts_answer calls_masts(struct calls_site first, struct calls_site second, uint32_t a, uint32_t b)
{
    struct janlishuk_plan_answer plan = plain_plan(file, file_length, file_base, file_zone, point_of(first), point_of(second), a, b);
    return (struct calls_masts_answer){.refusal = plan.refusal, .first = plan.first, .second = plan.second};
}
