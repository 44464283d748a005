/* lost.c: which casts lose their number, judged by value; the count by a plan, for each mapping and by sheets, over the range alone; refusals,
 * which leave it; and the conversion without a count, which gives the same bytes. bindings/test builds it as C and as C++. */
#include <stdio.h>
#include <string.h>

#include "nakvisk.h"

static int wrong = 0;

static void expect(const char *title, uint64_t number, uint64_t due) {
    if (number != due) {
        printf("lost: %s: %llu and not %llu\n", title, (unsigned long long) number, (unsigned long long) due);
        wrong = 1;
    }
}

static struct nakvisk_attribute attribute(char name, uint8_t code) {
    struct nakvisk_attribute made = {{0}, 1, NAKVISK_PLAIN(code)};
    made.name[0] = (uint8_t) name;
    return made;
}

/* A layout of one attribute, A. */
static struct nakvisk_layout layout_of(uint8_t code) {
    const struct nakvisk_layout empty = NAKVISK_EMPTY_LAYOUT;
    const struct nakvisk_layout_answer made = nakvisk_add_attribute(empty, attribute('A', code));
    expect("nakvisk_add_attribute", made.refusal, 0);
    return made.layout;
}

/* How many components one point loses; the three calls agree on it, and give the same bytes. */
static uint64_t lost_of(const char *title, uint8_t from, const void *source, uint8_t to) {
    const struct nakvisk_point_range one = {NAKVISK_INTERLEAVED, 1, 0, 1};
    const struct nakvisk_plan_answer made = nakvisk_for_layouts(layout_of(from), layout_of(to));
    const struct nakvisk_plan plan = made.plan;
    const size_t length = plan.source.size, width = plan.target.size;
    struct nakvisk_counted counted;
    uint8_t lent[24], by_plan[24] = {0}, by_mapping[24] = {0}, uncounted[24] = {0};
    uint64_t lost = 7;
    memcpy(lent, source, length);
    expect(title, made.refusal, 0);
    expect(title, nakvisk_convert_by_plan(plan, lent, length, one, by_plan, width, one, &lost), 0);
    counted = nakvisk_convert_by_mapping(plan, lent, length, one, by_mapping, width, one);
    expect(title, counted.refusal, 0);
    expect(title, counted.lost[0], lost);
    for (size_t i = 1; i < NAKVISK_MOST_ATTRIBUTES; i++) expect("the count of no mapping", counted.lost[i], 0);
    expect(title, nakvisk_convert_uncounted(plan, lent, length, one, uncounted, width, one), 0);
    expect("bytes by mapping", (uint64_t) memcmp(by_mapping, by_plan, 24), 0);
    expect("bytes without a count", (uint64_t) memcmp(uncounted, by_plan, 24), 0);
    return lost;
}

/* One number: its bits, and whether it is lost. */
struct number {
    const char *title;
    uint8_t from;
    uint64_t bits;
    uint8_t to;
    uint64_t lost;
};

static const struct number numbers[] = {
    /* between integers */
    {"U8 127 to I8", NAKVISK_U8, 127, NAKVISK_I8, 0},
    {"U8 255 to I8, which casting back would undo", NAKVISK_U8, 255, NAKVISK_I8, 1},
    {"I8 -1 to U8", NAKVISK_I8, 0xff, NAKVISK_U8, 1},
    {"I8 -1 to U64", NAKVISK_I8, 0xff, NAKVISK_U64, 1},
    {"I8 -1 to I64", NAKVISK_I8, 0xff, NAKVISK_I64, 0},
    {"U16 255 to U8", NAKVISK_U16, 255, NAKVISK_U8, 0},
    {"U16 256 to U8", NAKVISK_U16, 256, NAKVISK_U8, 1},
    {"I32 -128 to I8", NAKVISK_I32, 0xffffff80, NAKVISK_I8, 0},
    {"I32 -129 to I8", NAKVISK_I32, 0xffffff7f, NAKVISK_I8, 1},
    {"U64 2^64 - 1 to I64", NAKVISK_U64, 0xffffffffffffffff, NAKVISK_I64, 1},
    {"U32 2^32 - 1 to U64", NAKVISK_U32, 0xffffffff, NAKVISK_U64, 0},
    /* integers to floats */
    {"U16 65,535 to F32", NAKVISK_U16, 0xffff, NAKVISK_F32, 0},
    {"U32 2^24 to F32", NAKVISK_U32, 0x1000000, NAKVISK_F32, 0},
    {"U32 2^24 + 1 to F32", NAKVISK_U32, 0x1000001, NAKVISK_F32, 1},
    {"I32 highest to F32, which casting back would undo", NAKVISK_I32, 0x7fffffff, NAKVISK_F32, 1},
    {"I32 lowest to F32", NAKVISK_I32, 0x80000000, NAKVISK_F32, 0},
    {"U64 2^64 - 1 to F64, which casting back would undo", NAKVISK_U64, 0xffffffffffffffff, NAKVISK_F64, 1},
    {"I64 highest to F64, which casting back would undo", NAKVISK_I64, 0x7fffffffffffffff, NAKVISK_F64, 1},
    {"I64 -1 to F64", NAKVISK_I64, 0xffffffffffffffff, NAKVISK_F64, 0},
    {"I64 2^53 + 1 to F64", NAKVISK_I64, 0x20000000000001, NAKVISK_F64, 1},
    /* floats to integers */
    {"F32 2^32 to U32, which casting back would undo", NAKVISK_F32, 0x4f800000, NAKVISK_U32, 1},
    {"F32 2^32 - 2^8 to U32", NAKVISK_F32, 0x4f7fffff, NAKVISK_U32, 0},
    {"F32 -1 to U8", NAKVISK_F32, 0xbf800000, NAKVISK_U8, 1},
    {"F32 -1 to I8", NAKVISK_F32, 0xbf800000, NAKVISK_I8, 0},
    {"F32 1/2 to I32", NAKVISK_F32, 0x3f000000, NAKVISK_I32, 1},
    {"F64 -1/4 to U8", NAKVISK_F64, 0xbfd0000000000000, NAKVISK_U8, 1},
    {"F64 -0 to U8", NAKVISK_F64, 0x8000000000000000, NAKVISK_U8, 0},
    {"F64 -0 to I64", NAKVISK_F64, 0x8000000000000000, NAKVISK_I64, 0},
    {"F64 2^63 to I64", NAKVISK_F64, 0x43e0000000000000, NAKVISK_I64, 1},
    {"F64 -2^63 to I64", NAKVISK_F64, 0xc3e0000000000000, NAKVISK_I64, 0},
    {"F64 infinity to U64", NAKVISK_F64, 0x7ff0000000000000, NAKVISK_U64, 1},
    {"F32 -infinity to I16", NAKVISK_F32, 0xff800000, NAKVISK_I16, 1},
    {"F64 NaN to I32", NAKVISK_F64, 0x7ff8000000000000, NAKVISK_I32, 1},
    {"F32 NaN to U8", NAKVISK_F32, 0xffc00005, NAKVISK_U8, 1},
    /* between floats */
    {"F32 least subnormal to F64", NAKVISK_F32, 1, NAKVISK_F64, 0},
    {"F32 NaN to F64", NAKVISK_F32, 0x7f800001, NAKVISK_F64, 0},
    {"F32 -infinity to F64", NAKVISK_F32, 0xff800000, NAKVISK_F64, 0},
    {"F64 1/2 to F32", NAKVISK_F64, 0x3fe0000000000000, NAKVISK_F32, 0},
    {"F64 1 + 2^-52 to F32", NAKVISK_F64, 0x3ff0000000000001, NAKVISK_F32, 1},
    {"F64 -0 to F32", NAKVISK_F64, 0x8000000000000000, NAKVISK_F32, 0},
    {"F64 least subnormal to F32", NAKVISK_F64, 1, NAKVISK_F32, 1},
    {"F64 2^-149 to F32", NAKVISK_F64, 0x36a0000000000000, NAKVISK_F32, 0},
    {"F64 2^128 to F32", NAKVISK_F64, 0x47f0000000000000, NAKVISK_F32, 1},
    {"F64 infinity to F32", NAKVISK_F64, 0x7ff0000000000000, NAKVISK_F32, 0},
    {"F64 NaN of low payload bits alone to F32", NAKVISK_F64, 0xfff0000000000001, NAKVISK_F32, 0},
    /* copies */
    {"F64 signalling NaN to F64", NAKVISK_F64, 0x7ff0000000000001, NAKVISK_F64, 0},
    {"U64 2^64 - 1 to U64", NAKVISK_U64, 0xffffffffffffffff, NAKVISK_U64, 0},
};

static void vectors(void) {
    const double mixed[3] = {0.5, 0.1, -2};
    const uint16_t wide[3] = {256, 255, 65535};
    const int32_t large[3] = {16777217, -16777217, 16777216};
    expect("Vec3f64 to Vec3f32", lost_of("Vec3f64 to Vec3f32", NAKVISK_VEC3_F64, mixed, NAKVISK_VEC3_F32), 1);
    expect("Vec3f64 to Vec3i32", lost_of("Vec3f64 to Vec3i32", NAKVISK_VEC3_F64, mixed, NAKVISK_VEC3_I32), 2);
    expect("Vec3f64 to Vec3u8", lost_of("Vec3f64 to Vec3u8", NAKVISK_VEC3_F64, mixed, NAKVISK_VEC3_U8), 3);
    expect("Vec3f64 to Vec3f64", lost_of("Vec3f64 to Vec3f64", NAKVISK_VEC3_F64, mixed, NAKVISK_VEC3_F64), 0);
    expect("Vec3u16 to Vec3u8", lost_of("Vec3u16 to Vec3u8", NAKVISK_VEC3_U16, wide, NAKVISK_VEC3_U8), 2);
    expect("Vec3i32 to Vec3f32", lost_of("Vec3i32 to Vec3f32", NAKVISK_VEC3_I32, large, NAKVISK_VEC3_F32), 2);
    expect("Vec3i32 to Vec3f64", lost_of("Vec3i32 to Vec3f64", NAKVISK_VEC3_I32, large, NAKVISK_VEC3_F64), 0);
}

/* 600 points of A U16, more than a block has, into A U8 and B I8, both from A: each number from 0 on, so that above 255 and above 127 it is
 * lost. From points and from columns, over ranges. */
static void mappings(void) {
    enum { COUNT = 600 };
    static uint8_t source[2 * COUNT], target[2 * COUNT], other[2 * COUNT];
    const struct nakvisk_layout both = nakvisk_add_attribute(layout_of(NAKVISK_U8), attribute('B', NAKVISK_I8)).layout;
    const struct nakvisk_plan_answer made =
        nakvisk_set_custom_mapping(nakvisk_for_layouts_with_default(layout_of(NAKVISK_U16), both).plan, 0, 1);
    const uint32_t ends[][2] = {{0, COUNT}, {0, 128}, {100, 300}, {255, 257}, {599, 600}, {5, 5}};
    expect("nakvisk_set_custom_mapping", made.refusal, 0);
    for (size_t i = 0; i < COUNT; i++) {
        source[2 * i] = (uint8_t) i;
        source[2 * i + 1] = (uint8_t) (i >> 8);
    }
    for (uint32_t storages = 0; storages < 4; storages++) {
        for (size_t k = 0; k < sizeof ends / sizeof ends[0]; k++) {
            const uint32_t start = ends[k][0], end = ends[k][1];
            const struct nakvisk_point_range from = {storages & 1, COUNT, start, end}, to = {storages >> 1, COUNT, start, end};
            uint64_t lost = 7, bytes = 0, small = 0;
            struct nakvisk_counted counted;
            for (uint32_t i = start; i < end; i++) {
                bytes += i > 255;
                small += i > 127;
            }
            memset(target, 7, sizeof target);
            memset(other, 7, sizeof other);
            expect("by plan", nakvisk_convert_by_plan(made.plan, source, sizeof source, from, target, sizeof target, to, &lost), 0);
            expect("the sum", lost, bytes + small);
            counted = nakvisk_convert_by_mapping(made.plan, source, sizeof source, from, other, sizeof other, to);
            expect("by mapping", counted.refusal, 0);
            expect("the first mapping", counted.lost[0], bytes);
            expect("the second mapping", counted.lost[1], small);
            expect("bytes by mapping", (uint64_t) memcmp(other, target, sizeof target), 0);
            memset(other, 7, sizeof other);
            expect("uncounted", nakvisk_convert_uncounted(made.plan, source, sizeof source, from, other, sizeof other, to), 0);
            expect("bytes without a count", (uint64_t) memcmp(other, target, sizeof target), 0);
        }
    }
}

/* 32 attributes U16 to U8, as many mappings as a plan can have; of attribute k the first k of 32 points are lost. */
static void most_mappings(void) {
    enum { COUNT = NAKVISK_MOST_ATTRIBUTES };
    static uint8_t source[2 * COUNT * COUNT], target[COUNT * COUNT];
    const struct nakvisk_point_range columns = {NAKVISK_COLUMNS, COUNT, 0, COUNT};
    struct nakvisk_layout from = NAKVISK_EMPTY_LAYOUT, to = NAKVISK_EMPTY_LAYOUT;
    struct nakvisk_counted counted;
    uint64_t lost = 7;
    for (size_t k = 0; k < COUNT; k++) {
        from = nakvisk_add_attribute(from, attribute((char) ('A' + k), NAKVISK_U16)).layout;
        to = nakvisk_add_attribute(to, attribute((char) ('A' + k), NAKVISK_U8)).layout;
        for (size_t i = 0; i < COUNT; i++) source[2 * (k * COUNT + i) + 1] = i < k;
    }
    counted = nakvisk_convert_by_mapping(nakvisk_for_layouts(from, to).plan, source, sizeof source, columns, target, sizeof target, columns);
    expect("32 mappings", counted.refusal, 0);
    for (size_t k = 0; k < COUNT; k++) expect("a mapping of 32", counted.lost[k], k);
    expect("32 mappings by plan",
           nakvisk_convert_by_plan(nakvisk_for_layouts(from, to).plan, source, sizeof source, columns, target, sizeof target, columns, &lost), 0);
    expect("the sum of 32", lost, COUNT * (COUNT - 1) / 2);
}

/* Each call refuses alike; the number is as it was, and so is every byte. */
static void refused(const char *title, struct nakvisk_plan plan, struct nakvisk_point_range from, struct nakvisk_point_range to, uint32_t due) {
    const uint8_t source[6] = {255, 255, 255, 255, 255, 255};
    uint8_t target[3] = {7, 7, 7};
    uint64_t lost = 0x123456789abcdef0;
    const struct nakvisk_counted counted = nakvisk_convert_by_mapping(plan, source, 6, from, target, 3, to);
    expect(title, nakvisk_convert_by_plan(plan, source, 6, from, target, 3, to, &lost), due);
    expect(title, lost, 0x123456789abcdef0);
    expect(title, counted.refusal, due);
    for (size_t i = 0; i < NAKVISK_MOST_ATTRIBUTES; i++) expect(title, counted.lost[i], 0);
    expect(title, nakvisk_convert_uncounted(plan, source, 6, from, target, 3, to), due);
    for (size_t i = 0; i < 3; i++) expect(title, target[i], 7);
}

static void refusals(void) {
    const struct nakvisk_plan plan = nakvisk_for_layouts(layout_of(NAKVISK_U16), layout_of(NAKVISK_U8)).plan;
    const struct nakvisk_point_range three = {NAKVISK_INTERLEAVED, 3, 0, 3}, four = {NAKVISK_INTERLEAVED, 4, 0, 3};
    const struct nakvisk_point_range columns = {NAKVISK_COLUMNS, 4, 0, 3}, backward = {NAKVISK_INTERLEAVED, 3, 3, 0};
    const struct nakvisk_point_range two = {NAKVISK_INTERLEAVED, 3, 0, 2}, past = {NAKVISK_INTERLEAVED, 3, 1, 4};
    struct nakvisk_plan unsound = plan;
    unsound.count = 2;
    unsound.mappings[1] = unsound.mappings[0];
    refused("a plan with one target twice", unsound, three, three, NAKVISK_NOT_SOUND);
    refused("a source that is short", plan, four, three, NAKVISK_SOURCE_LENGTH);
    refused("a target that is short", plan, three, four, NAKVISK_TARGET_LENGTH);
    refused("columns that are short", plan, columns, three, NAKVISK_COLUMN_LENGTH);
    refused("target columns that are short", plan, three, columns, NAKVISK_COLUMN_LENGTH);
    refused("a backward range", plan, backward, three, NAKVISK_BACKWARD_RANGE);
    refused("ranges that differ", plan, two, three, NAKVISK_RANGES_DIFFER);
    refused("a source range past the end", plan, past, three, NAKVISK_SOURCE_RANGE);
    refused("a target range past the end", plan, three, past, NAKVISK_TARGET_RANGE);
}

/* A U16 to a U8, of the empty name: the second and the third of three are lost. */
static void sheets(void) {
    const uint8_t source_sheet[] = {0x04, 0x01, 0x00, 0x00}, target_sheet[] = {0x04, 0x00, 0x00, 0x00}, by_name[] = {0x00};
    const struct nakvisk_point_range three = {NAKVISK_INTERLEAVED, 3, 0, 3}, columns = {NAKVISK_COLUMNS, 3, 0, 3};
    const uint8_t source[6] = {255, 0, 0, 1, 255, 255};
    uint8_t target[3];
    uint64_t lost = 7;
    expect("by sheets", nakvisk_convert(source_sheet, 4, target_sheet, 4, by_name, 1, source, 6, three, target, 3, columns, &lost), 0);
    expect("the count by sheets", lost, 2);
    expect("a sheet cut off", nakvisk_convert(source_sheet, 3, target_sheet, 4, by_name, 1, source, 6, three, target, 3, three, &lost), 2);
    expect("a short source", nakvisk_convert(source_sheet, 4, target_sheet, 4, by_name, 1, source, 5, three, target, 3, three, &lost), 15);
    expect("the count after refusals", lost, 2);
}

int main(void) {
    expect("lost in a counted answer", offsetof(struct nakvisk_counted, lost), 8);
    expect("bytes of a counted answer", sizeof(struct nakvisk_counted), 264);
    for (size_t i = 0; i < sizeof numbers / sizeof numbers[0]; i++) {
        const struct number *n = &numbers[i];
        expect(n->title, lost_of(n->title, n->from, &n->bits, n->to), n->lost);
    }
    vectors();
    mappings();
    most_mappings();
    refusals();
    sheets();
    return wrong;
}
