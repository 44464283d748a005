/* nan.c: a NaN that is cast to a float keeps its sign and the 22 payload bits below the quiet bit, which is set, by a plan and in a single
 * point; a copy keeps every bit; neither counts as lost. bindings/test builds it as C and as C++. */
#include <stdio.h>
#include <string.h>

#include "nakvisk.h"

enum { F32 = 8, F64 = 9 };

static int wrong = 0;

static void expect(const char *title, uint64_t number, uint64_t due) {
    if (number != due) {
        printf("nan: %s: %llx and not %llx\n", title, (unsigned long long) number, (unsigned long long) due);
        wrong = 1;
    }
}

/* A layout of one attribute, Z. */
static struct nakvisk_layout layout_of(uint8_t code) {
    struct nakvisk_layout_answer made;
    struct nakvisk_layout empty;
    struct nakvisk_attribute z;
    memset(&empty, 0, sizeof empty);
    empty.alignment = 1;
    memset(&z, 0, sizeof z);
    z.name[0] = 'Z';
    z.name_len = 1;
    z.datatype.code = code;
    made = nakvisk_add_attribute(empty, z);
    expect("nakvisk_add_attribute", made.refusal, 0);
    return made.layout;
}

/* The bits of a float of the one datatype as one of the other. */
static uint64_t converted(uint8_t from, uint64_t bits, uint8_t to) {
    const struct nakvisk_point_range one = {NAKVISK_INTERLEAVED, 1, 0, 1};
    struct nakvisk_plan_answer made = nakvisk_for_layouts(layout_of(from), layout_of(to));
    uint64_t by_plan = 0, by_point = 0, lost = 7;
    uint8_t source[8], target[8] = {0};
    size_t width = from == F32 ? 4 : 8, length = to == F32 ? 4 : 8;
    memcpy(source, &bits, 8);
    expect("nakvisk_for_layouts", made.refusal, 0);
    expect("nakvisk_convert_by_plan", nakvisk_convert_by_plan(made.plan, source, width, one, target, length, one, &lost), 0);
    expect("components lost", lost, 0);
    memcpy(&by_plan, target, length);
    if (from != to) {
        memset(target, 0, sizeof target);
        expect("nakvisk_convert_point", nakvisk_convert_point(layout_of(from), layout_of(to), source, width, target, length), 0);
        memcpy(&by_point, target, length);
        expect("a single point", by_point, by_plan);
    }
    return by_plan;
}

int main(void) {
    expect("a payload in the low 29 bits alone", converted(F64, 0xfff0000000000001, F32), 0xffc00000);
    expect("every payload bit, to F32", converted(F64, 0x7fffffffffffffff, F32), 0x7fffffff);
    expect("the lowest payload bit, to F64", converted(F32, 0x7f800001, F64), 0x7ff8000020000000);
    expect("every payload bit, to F64", converted(F32, 0xffffffff, F64), 0xffffffffe0000000);
    expect("a signalling F32, copied", converted(F32, 0xff800001, F32), 0xff800001);
    expect("a signalling F64, copied", converted(F64, 0x7ff0000000000001, F64), 0x7ff0000000000001);
    return wrong;
}
