/* arrays.c: ByteArrays of up to 65,535 bytes. The structs lie as the archive has them; sizes, ends, lookups, plans and copies count all 16 bits
 * of n. bindings/test builds it as C and as C++. */
#include <stdio.h>
#include <string.h>

#include "nakvisk.h"

static int wrong = 0;

static void expect(const char *title, uint64_t number, uint64_t due) {
    if (number != due) {
        printf("arrays: %s: %llu and not %llu\n", title, (unsigned long long) number, (unsigned long long) due);
        wrong = 1;
    }
}

static struct nakvisk_datatype array_of(uint16_t n) {
    const struct nakvisk_datatype made = NAKVISK_BYTE_ARRAY_OF(n);
    return made;
}

static struct nakvisk_attribute array(uint16_t n) {
    const struct nakvisk_attribute made = {{'N'}, 1, NAKVISK_BYTE_ARRAY_OF(n)};
    return made;
}

/* A layout of one ByteArray. */
static struct nakvisk_layout layout_of(uint16_t n) {
    const struct nakvisk_layout empty = NAKVISK_EMPTY_LAYOUT;
    const struct nakvisk_layout_answer made = nakvisk_add_attribute(empty, array(n));
    expect("nakvisk_add_attribute", made.refusal, 0);
    expect("point size", made.layout.size, n);
    expect("alignment", made.layout.alignment, 1);
    expect("n in the layout", made.layout.attributes[0].definition.datatype.n, n);
    return made.layout;
}

static void structs(void) {
    expect("code in a datatype", offsetof(struct nakvisk_datatype, code), 0);
    expect("n in a datatype", offsetof(struct nakvisk_datatype, n), 2);
    expect("alignment in a datatype", offsetof(struct nakvisk_datatype, alignment), 4);
    expect("name_high in a datatype", offsetof(struct nakvisk_datatype, name_high), 8);
    expect("name_low in a datatype", offsetof(struct nakvisk_datatype, name_low), 16);
    expect("bytes of a datatype", sizeof(struct nakvisk_datatype), 24);
    expect("name_len in an attribute", offsetof(struct nakvisk_attribute, name_len), 31);
    expect("datatype in an attribute", offsetof(struct nakvisk_attribute, datatype), 32);
    expect("bytes of an attribute", sizeof(struct nakvisk_attribute), 56);
    expect("offset in a member", offsetof(struct nakvisk_member, offset), 56);
    expect("bytes of a member", sizeof(struct nakvisk_member), 64);
    expect("count in a layout", offsetof(struct nakvisk_layout, count), 2048);
    expect("size in a layout", offsetof(struct nakvisk_layout, size), 2050);
    expect("alignment in a layout", offsetof(struct nakvisk_layout, alignment), 2052);
    expect("bytes of a layout", sizeof(struct nakvisk_layout), 2056);
    expect("target in a plan", offsetof(struct nakvisk_plan, target), 2056);
    expect("mappings in a plan", offsetof(struct nakvisk_plan, mappings), 4112);
    expect("count in a plan", offsetof(struct nakvisk_plan, count), 4176);
    expect("bytes of a plan", sizeof(struct nakvisk_plan), 4184);
    expect("layout in an answer", offsetof(struct nakvisk_layout_answer, layout), 8);
    expect("plan in an answer", offsetof(struct nakvisk_plan_answer, plan), 8);
}

static void sizes(void) {
    const uint16_t lengths[] = {1, 255, 256, 257, 300, 65535};
    const struct nakvisk_layout empty = NAKVISK_EMPTY_LAYOUT, longest = layout_of(65535);
    const struct nakvisk_attribute byte = {{'B'}, 1, NAKVISK_PLAIN(NAKVISK_U8)};
    const struct nakvisk_datatype u16 = {NAKVISK_U16, 256, 0, 0, 0};
    for (size_t i = 0; i < sizeof lengths / sizeof lengths[0]; i++) {
        const struct nakvisk_datatype_answer known = nakvisk_datatype_of(array_of(lengths[i]));
        expect("nakvisk_datatype_of", known.refusal, 0);
        expect("size", known.size, lengths[i]);
        expect("alignment", known.alignment, 1);
        layout_of(lengths[i]);
    }
    expect("a ByteArray of 0", nakvisk_datatype_of(array_of(0)).refusal, NAKVISK_DATATYPE_SIZE);
    expect("a ByteArray of 0 added", nakvisk_add_attribute(empty, array(0)).refusal, NAKVISK_DATATYPE_SIZE);
    expect("n of a U16", nakvisk_datatype_of(u16).size, 2);
    expect("a U8 after 65,535 bytes", nakvisk_add_attribute(longest, byte).refusal, NAKVISK_TOO_LARGE);
    expect("the same packed", nakvisk_add_attribute_packed(longest, byte, 1).refusal, NAKVISK_TOO_LARGE);
}

/* The two have the same low 8 bits. */
static void same_low_bits(uint16_t n, uint16_t other) {
    const struct nakvisk_layout layout = layout_of(n), low = layout_of(other);
    struct nakvisk_plan plan = nakvisk_for_layouts(layout, layout).plan;
    uint8_t text[NAKVISK_LISTING_SIZE];
    uint32_t written = 0;
    expect("nakvisk_index_of", nakvisk_index_of(layout, array(n)).found, 1);
    expect("nakvisk_index_of of another n", nakvisk_index_of(layout, array(other)).found, 0);
    expect("nakvisk_offset_of of another n", nakvisk_offset_of(layout, array(other)).found, 0);
    expect("a lookup of n 0", nakvisk_index_of(layout, array(0)).refusal, NAKVISK_DATATYPE_SIZE);
    expect("nakvisk_compare_without_offsets", nakvisk_compare_without_offsets(layout, layout).same, 1);
    expect("nakvisk_compare_without_offsets of another n", nakvisk_compare_without_offsets(layout, low).same, 0);
    expect("nakvisk_for_layouts of another n", nakvisk_for_layouts(layout, low).refusal, NAKVISK_NO_CAST);
    expect("nakvisk_convert_point of another n", nakvisk_convert_point(layout, low, NULL, 0, NULL, 0), NAKVISK_NO_CAST);
    expect("nakvisk_list_plan", nakvisk_list_plan(plan, text, sizeof text, &written), 0);
    plan.target = low;
    expect("a plan of another n", nakvisk_list_plan(plan, text, sizeof text, &written), NAKVISK_NOT_SOUND);
}

/* Three points with N, of 300 bytes, and Z, a byte: copied into points, and into columns. */
static void copies(void) {
    enum { N = 300, SIZE = N + 1, COUNT = 3 };
    const struct nakvisk_point_range points = {NAKVISK_INTERLEAVED, COUNT, 0, COUNT}, columns = {NAKVISK_COLUMNS, COUNT, 0, COUNT};
    const struct nakvisk_attribute z = {{'Z'}, 1, NAKVISK_PLAIN(NAKVISK_U8)};
    const struct nakvisk_layout_answer made = nakvisk_add_attribute(layout_of(N), z);
    const struct nakvisk_plan plan = nakvisk_for_layouts(made.layout, made.layout).plan;
    struct nakvisk_part part;
    uint8_t source[COUNT * SIZE], target[COUNT * SIZE];
    uint64_t lost = 7;
    size_t i;
    expect("nakvisk_add_attribute after 300 bytes", made.refusal, 0);
    expect("offset after 300 bytes", made.layout.attributes[1].offset, N);
    for (i = 0; i < sizeof source; i++) source[i] = (uint8_t) (i % 251);
    memset(target, 255, sizeof target);
    expect("points into points", nakvisk_convert_by_plan(plan, source, sizeof source, points, target, sizeof target, points, &lost), 0);
    expect("components lost", lost, 0);
    expect("points", (uint64_t) memcmp(source, target, sizeof source), 0);
    memset(target, 255, sizeof target);
    expect("points into columns", nakvisk_convert_by_plan(plan, source, sizeof source, points, target, sizeof target, columns, &lost), 0);
    for (i = 0; i < COUNT; i++) {
        expect("a note in its column", (uint64_t) memcmp(target + i * N, source + i * SIZE, N), 0);
        expect("a byte in its column", target[COUNT * N + i], source[i * SIZE + N]);
    }
    part = nakvisk_read_point(made.layout, 0, COUNT, source, sizeof source, 2);
    expect("nakvisk_read_point", part.refusal, 0);
    expect("start of a part", part.start, 2 * SIZE);
    expect("size of a part", part.size, N);
}

int main(void) {
    const uint8_t long_form[] = {0x04, 0x08, 0x00, 0x00, 0x96, 0x00, 0x00}; /* a ByteArray of 300 with the empty name */
    const uint8_t below_256[] = {0x04, 0x08, 0x00, 0x00, 0x7f, 0x80, 0x00}; /* the same with 255 in 16 bits */
    uint32_t size = 0;
    structs();
    sizes();
    same_low_bits(256, 512);
    same_low_bits(257, 1);
    same_low_bits(65535, 255);
    copies();
    expect("a sheet", nakvisk_point_size(long_form, sizeof long_form, &size), 0);
    expect("point size of a sheet", size, 300);
    expect("a sheet with 255 in 16 bits", nakvisk_point_size(below_256, sizeof below_256, &size), NAKVISK_DATATYPE_SIZE);
    expect("a sheet that ends after n 0", nakvisk_point_size(long_form, 4, &size), NAKVISK_SHEET_ENDS);
    return wrong;
}
