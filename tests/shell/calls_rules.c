/* The shell's questions answered by the rules of document 01, as tests/second has them. */
#include "calls.h"
#include "rules.h"

/* The file that passed last. */
static struct rules_file used;

/* A site as a point in the zone of the file. */
static struct janlishuk_point point_of(struct calls_site site)
{
    return (struct janlishuk_point){.zone = (uint32_t)used.zone, .easting = site.easting, .northing = site.northing};
}

/* The refusal of the file's check, or 0 and the file is kept. */
uint32_t calls_use(const uint8_t *bytes, size_t length, uint32_t base, uint32_t zone)
{
    struct rules_file file = {.bytes = bytes, .length = length, .base = base, .zone = zone};
    uint32_t refusal = rules_check(file).refusal;
    if (refusal == 0)
        used = file;
    return refusal;
}

/* N of the path and the verdict with both masts 0, or the verdict's refusal. */
struct calls_path_answer calls_path(struct calls_site first, struct calls_site second)
{
    struct janlishuk_verdict_answer verdict = rules_verdict(used, point_of(first), point_of(second), 0, 0);
    if (verdict.refusal != 0)
        return (struct calls_path_answer){.refusal = verdict.refusal};
    uint64_t n = rules_steps(rules_square(point_of(first), point_of(second)));
    return (struct calls_path_answer){.n = (uint32_t)n, .clear = verdict.clear};
}

/* The masts of the plan, or its refusal. */
struct calls_masts_answer calls_masts(struct calls_site first, struct calls_site second, uint32_t a, uint32_t b)
{
    struct janlishuk_plan_answer plan = rules_plan(used, point_of(first), point_of(second), a, b);
    return (struct calls_masts_answer){.refusal = plan.refusal, .first = plan.first, .second = plan.second};
}
