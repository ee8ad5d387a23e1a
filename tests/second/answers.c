/* Asking a question of the library and of the rules, and comparing the two answers field by field, and the lists of an upload too. */
#include <inttypes.h>
#include <stdio.h>
#include <string.h>

#include "second.h"

/* Most fields that an answer has: those of a profile. */
#define MOST_FIELDS (3 + 2 * JANLISHUK_ROOM)

/* The name of a call. */
const char *call_name(enum call call)
{
    static const char *const names[CALLS] = {
        "check", "name", "base", "read", "spot", "upload", "engine_point", "profile", "verdict", "plan", "engine_row",
    };
    return names[call];
}

/* The library's answer to a question. */
void ask_library(const struct file *file, const struct question *q, union answer *answer)
{
    const uint8_t *bytes = file->lent;
    size_t length = file->length;
    switch (q->call) {
    case CHECK: answer->check = janlishuk_check(bytes, length, q->base, q->zone); break;
    case NAME: answer->name = janlishuk_name(q->base, q->zone); break;
    case BASE: answer->base = janlishuk_base(q->first.northing); break;
    case READ: answer->read = janlishuk_read(bytes, length, q->base, q->zone, q->first); break;
    case SPOT: answer->read = janlishuk_spot(bytes, length, q->base, q->zone, q->first); break;
    case UPLOAD: answer->upload = upload_to_library(file, q); break;
    case ENGINE_POINT: answer->engine_point = janlishuk_engine_point(bytes, length, q->base, q->zone, q->first); break;
    case PROFILE: answer->profile = janlishuk_profile(bytes, length, q->base, q->zone, q->first, q->second); break;
    case VERDICT: answer->verdict = janlishuk_verdict(bytes, length, q->base, q->zone, q->first, q->second, q->a, q->b); break;
    case PLAN: answer->plan = janlishuk_plan(bytes, length, q->base, q->zone, q->first, q->second, q->a, q->b); break;
    case ENGINE_ROW: answer->engine_row = janlishuk_engine_row(bytes, length, q->base, q->zone, q->first, q->second, q->a); break;
    case CALLS: break;
    }
}

/* The rules' answer to a question. */
void ask_rules(const struct file *file, const struct question *q, union answer *answer)
{
    struct rules_file asked = opened(file, q->base, q->zone);
    switch (q->call) {
    case CHECK: answer->check = rules_check(asked); break;
    case NAME: answer->name = rules_name(q->base, q->zone); break;
    case BASE: answer->base = rules_base(q->first.northing); break;
    case READ: answer->read = rules_read(asked, q->first); break;
    case SPOT: answer->read = rules_spot(asked, q->first); break;
    case UPLOAD: answer->upload = upload_by_rules(asked, &q->survey); break;
    case ENGINE_POINT: answer->engine_point = rules_engine_point(asked, q->first); break;
    case PROFILE: answer->profile = rules_profile(asked, q->first, q->second); break;
    case VERDICT: answer->verdict = rules_verdict(asked, q->first, q->second, q->a, q->b); break;
    case PLAN: answer->plan = rules_plan(asked, q->first, q->second, q->a, q->b); break;
    case ENGINE_ROW: answer->engine_row = rules_engine_row(asked, q->first, q->second, q->a); break;
    case CALLS: break;
    }
}

/* The eight bytes of a double as a number. */
static uint64_t bits_of(double value)
{
    uint64_t bits;
    memcpy(&bits, &value, sizeof bits);
    return bits;
}

/* The fields of a profile after the refusal and the place: n, then every height, then every code. */
static size_t profile_fields(const struct janlishuk_profile_answer *profile, uint64_t *fields)
{
    size_t count = 0;
    fields[count++] = profile->n;
    for (size_t i = 0; i < JANLISHUK_ROOM; i++)
        fields[count++] = profile->heights[i];
    for (size_t i = 0; i < JANLISHUK_ROOM; i++)
        fields[count++] = profile->codes[i];
    return count;
}

/* Every field of an answer as a number, in the order of janlishuk.h, and how many there are. Refusal and place are the first two fields of
 * every answer. */
static size_t fields_of(enum call call, const union answer *answer, uint64_t fields[MOST_FIELDS])
{
    size_t count = 0;
    fields[count++] = answer->check.refusal;
    fields[count++] = answer->check.place;
    switch (call) {
    case CHECK: fields[count++] = answer->check.highest; break;
    case NAME:
        for (int k = 0; k < 4; k++)
            fields[count++] = answer->name.name[k];
        break;
    case BASE: fields[count++] = answer->base.base; break;
    case READ:
    case SPOT:
        fields[count++] = answer->read.height;
        fields[count++] = answer->read.code;
        break;
    case UPLOAD: break;
    case ENGINE_POINT:
        fields[count++] = answer->engine_point.kind;
        fields[count++] = answer->engine_point.code;
        fields[count++] = bits_of(answer->engine_point.metres);
        break;
    case PROFILE: count += profile_fields(&answer->profile, fields + count); break;
    case VERDICT: fields[count++] = answer->verdict.clear; break;
    case PLAN:
        fields[count++] = answer->plan.first;
        fields[count++] = answer->plan.second;
        break;
    case ENGINE_ROW:
        fields[count++] = bits_of(answer->engine_row.height);
        fields[count++] = bits_of(answer->engine_row.share);
        break;
    case CALLS: break;
    }
    return count;
}

/* The name of a field of an answer, written into `name`. */
static void field_name(enum call call, size_t field, char name[32])
{
    static const char *const names[CALLS][6] = {
        [CHECK] = {"highest"}, [NAME] = {"name[0]", "name[1]", "name[2]", "name[3]"}, [BASE] = {"base"}, [READ] = {"height", "code"},
        [SPOT] = {"height", "code"}, [ENGINE_POINT] = {"kind", "code", "metres (bits)"}, [PROFILE] = {"n"}, [VERDICT] = {"clear"},
        [PLAN] = {"first", "second"}, [ENGINE_ROW] = {"height (bits)", "share (bits)"},
    };
    if (field < 2)
        snprintf(name, 32, "%s", field == 0 ? "refusal" : "place");
    else if (call == PROFILE && field >= 3 + JANLISHUK_ROOM)
        snprintf(name, 32, "codes[%zu]", field - 3 - JANLISHUK_ROOM);
    else if (call == PROFILE && field >= 3)
        snprintf(name, 32, "heights[%zu]", field - 3);
    else
        snprintf(name, 32, "%s", names[call][field - 2]);
}

/* Whether every field of the library's answer is that of the rules', doubles bit for bit, and for an upload all that its lists hold too. */
bool same_answer(enum call call, const union answer *library, const union answer *rules)
{
    uint64_t fields[2][MOST_FIELDS];
    size_t count = fields_of(call, library, fields[0]);
    fields_of(call, rules, fields[1]);
    return memcmp(fields[0], fields[1], count * sizeof fields[0][0]) == 0 && (call != UPLOAD || same_lists());
}

/* Whether the rules give for a spot what they give for a reading; asked of every point of these two calls in a file that passes the check,
 * and true of all other questions. */
bool rules_agree(const struct file *file, const struct question *q)
{
    struct rules_file asked = opened(file, q->base, q->zone);
    if ((q->call != READ && q->call != SPOT) || rules_check(asked).refusal != 0)
        return true;
    union answer read = {.read = rules_read(asked, q->first)};
    union answer spot = {.read = rules_spot(asked, q->first)};
    return same_answer(READ, &spot, &read);
}

/* Prints both answers field by field, with a mark where they differ, and of the lists of an upload the first entries that differ. */
void print_answers(const struct question *q, const union answer *library, const union answer *rules)
{
    uint64_t fields[2][MOST_FIELDS];
    enum call call = q->call;
    size_t count = fields_of(call, library, fields[0]);
    fields_of(call, rules, fields[1]);
    printf("  %-16s %20s %20s\n", "field", "library", "rules");
    for (size_t k = 0; k < count; k++) {
        char name[32];
        field_name(call, k, name);
        printf("  %-16s %20" PRIu64 " %20" PRIu64 "%s\n", name, fields[0][k], fields[1][k], fields[0][k] == fields[1][k] ? "" : "  <<<");
    }
    if (call == UPLOAD)
        print_lists(&q->survey);
    if (call == ENGINE_POINT)
        printf("  metres: library %.17g, rules %.17g\n", library->engine_point.metres, rules->engine_point.metres);
    if (call == ENGINE_ROW)
        printf("  height: library %.17g, rules %.17g; share: library %.17g, rules %.17g\n", library->engine_row.height,
               rules->engine_row.height, library->engine_row.share, rules->engine_row.share);
}

/* Prints a question: the file it is asked of, the call and all that may be its arguments. */
void print_question(const struct file *file, const struct question *q)
{
    printf("  file %" PRIu32 " of %zu bytes, made for base %" PRIu32 " zone %" PRIu32 " with %" PRIu32 " rectangles covered, damage: %s\n",
           file->number, file->length, file->base, file->zone, file->covered_count, damage_name(file->damage));
    printf("  call janlishuk_%s: base %" PRIu32 " zone %" PRIu32 "\n", call_name(q->call), q->base, q->zone);
    if (q->call == UPLOAD) {
        print_survey(&q->survey);
        return;
    }
    printf("  first zone %" PRIu32 " easting %" PRIu32 " northing %" PRIu32 "\n", q->first.zone, q->first.easting, q->first.northing);
    printf("  second zone %" PRIu32 " easting %" PRIu32 " northing %" PRIu32 "\n", q->second.zone, q->second.easting, q->second.northing);
    printf("  a (or la, or i) %" PRIu32 ", b (or lb) %" PRIu32 "\n", q->a, q->b);
}
