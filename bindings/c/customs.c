/* customs.c: Customs, each of a size, a minimum alignment and a name of 128 bits. Where they are placed; that two are equal exactly where all
 * three are, in lookups, comparisons, plans and single points; and that code 17 pairs with no other. bindings/test builds it as C and as C++. */
#include <stdio.h>
#include <string.h>

#include "nakvisk.h"

static const uint64_t HIGH = 0x0e6f2c548b1d4f3aULL, LOW = 0x9c07d25a61b8e493ULL;

static int wrong = 0;

static void expect(const char *title, uint64_t number, uint64_t due) {
    if (number != due) {
        printf("customs: %s: %llu and not %llu\n", title, (unsigned long long) number, (unsigned long long) due);
        wrong = 1;
    }
}

static struct nakvisk_attribute attribute(struct nakvisk_datatype datatype) {
    struct nakvisk_attribute made = {{'S'}, 1, NAKVISK_PLAIN(NAKVISK_U8)};
    made.datatype = datatype;
    return made;
}

static struct nakvisk_attribute custom(uint16_t n, uint8_t alignment) {
    const struct nakvisk_datatype made = NAKVISK_CUSTOM_OF(n, alignment, HIGH, LOW);
    return attribute(made);
}

/* A layout of one attribute, at 0. */
static struct nakvisk_layout layout_of(struct nakvisk_attribute attribute) {
    struct nakvisk_layout_answer made;
    struct nakvisk_member member;
    member.definition = attribute;
    member.offset = 0;
    made = nakvisk_layout_of_members(&member, 1, 1);
    expect("nakvisk_layout_of_members", made.refusal, 0);
    return made.layout;
}

static void sizes(void) {
    const struct nakvisk_layout empty = NAKVISK_EMPTY_LAYOUT;
    const uint8_t alignments[] = {0, 1, 3, 16, 128, 255};
    const uint16_t lengths[] = {1, 16, 256, 65535};
    const struct nakvisk_datatype beyond = {18, 16, 8, 0, 0};
    struct nakvisk_layout unsound = NAKVISK_EMPTY_LAYOUT;
    struct nakvisk_member member;
    for (size_t i = 0; i < sizeof lengths / sizeof lengths[0]; i++) {
        for (size_t k = 0; k < sizeof alignments / sizeof alignments[0]; k++) {
            const struct nakvisk_datatype_answer known = nakvisk_datatype_of(custom(lengths[i], alignments[k]).datatype);
            expect("nakvisk_datatype_of", known.refusal, 0);
            expect("size", known.size, lengths[i]);
            expect("alignment", known.alignment, alignments[k]);
        }
    }
    member.definition = custom(0, 8);
    member.offset = 0;
    expect("size 0", nakvisk_datatype_of(custom(0, 8).datatype).refusal, NAKVISK_DATATYPE_SIZE);
    expect("size 0 added", nakvisk_add_attribute(empty, custom(0, 8)).refusal, NAKVISK_DATATYPE_SIZE);
    expect("size 0 packed", nakvisk_add_attribute_packed(empty, custom(0, 0), 1).refusal, NAKVISK_DATATYPE_SIZE);
    expect("size 0 given", nakvisk_layout_of_members(&member, 1, 1).refusal, NAKVISK_DATATYPE_SIZE);
    expect("size 0 looked up", nakvisk_index_of(empty, custom(0, 8)).refusal, NAKVISK_DATATYPE_SIZE);
    expect("code 18", nakvisk_datatype_of(beyond).refusal, NAKVISK_CODE);
    unsound.attributes[0] = member;
    unsound.count = 1;
    expect("a layout that holds size 0", nakvisk_offset_of(unsound, custom(1, 8)).refusal, NAKVISK_NOT_SOUND);
}

/* The last attribute lies there, and the layout has that size and alignment. */
static void lies(const char *title, struct nakvisk_layout_answer made, uint64_t offset, uint64_t size, uint64_t alignment) {
    expect(title, made.refusal, 0);
    if (made.refusal == 0) {
        expect(title, made.layout.attributes[made.layout.count - 1].offset, offset);
        expect(title, made.layout.size, size);
        expect(title, made.layout.alignment, alignment);
    }
}

static void places(void) {
    const struct nakvisk_attribute u8 = {{'B'}, 1, NAKVISK_PLAIN(NAKVISK_U8)}, u32 = {{'N'}, 1, NAKVISK_PLAIN(NAKVISK_U32)};
    const struct nakvisk_layout empty = NAKVISK_EMPTY_LAYOUT;
    const struct nakvisk_layout byte = nakvisk_add_attribute(empty, u8).layout, number = nakvisk_add_attribute(empty, u32).layout;
    struct nakvisk_member member;
    lies("alignment 0 alone", nakvisk_add_attribute(empty, custom(5, 0)), 0, 5, 1);
    lies("alignment 0 behind a U8", nakvisk_add_attribute(byte, custom(5, 0)), 1, 6, 1);
    lies("alignment 0 behind a U32", nakvisk_add_attribute(number, custom(5, 0)), 4, 12, 4);
    lies("alignment 3 behind a U32", nakvisk_add_attribute(number, custom(5, 3)), 6, 12, 4);
    lies("alignment 16 behind a U8", nakvisk_add_attribute(byte, custom(16, 16)), 16, 32, 16);
    lies("alignment 128 behind a U8", nakvisk_add_attribute(byte, custom(5, 128)), 128, 256, 128);
    lies("a U8 behind alignment 3", nakvisk_add_attribute(nakvisk_add_attribute(number, custom(5, 3)).layout, u8), 11, 12, 4);
    expect("alignment 3 alone", nakvisk_add_attribute(empty, custom(5, 3)).refusal, NAKVISK_ALIGNMENT);
    expect("alignment 3 behind a U8", nakvisk_add_attribute(byte, custom(5, 3)).refusal, NAKVISK_ALIGNMENT);
    expect("alignment 255 behind a U32", nakvisk_add_attribute(number, custom(5, 255)).refusal, NAKVISK_ALIGNMENT);
    lies("alignment 0, Packed of 4", nakvisk_add_attribute_packed(byte, custom(5, 0), 4), 1, 6, 1);
    lies("alignment 3, Packed of 4", nakvisk_add_attribute_packed(number, custom(5, 3), 4), 6, 12, 4);
    lies("alignment 3, Packed of 2", nakvisk_add_attribute_packed(number, custom(5, 3), 2), 4, 10, 2);
    lies("alignment 128, Packed of 4", nakvisk_add_attribute_packed(byte, custom(5, 128), 4), 4, 9, 1);
    expect("65,535 bytes, alignment 2", nakvisk_add_attribute(empty, custom(65535, 2)).refusal, NAKVISK_TOO_LARGE);
    lies("65,535 bytes, alignment 1", nakvisk_add_attribute(empty, custom(65535, 1)), 0, 65535, 1);
    /* the alignment of a given datatype is not looked at */
    member.definition = custom(5, 3);
    member.offset = 7;
    lies("given", nakvisk_layout_of_members(&member, 1, 4), 7, 12, 4);
}

/* The two datatypes are equal, or they are not, in each call that compares datatypes; not: they have neither copy nor cast. */
static void pair(const char *title, struct nakvisk_datatype one, struct nakvisk_datatype two, uint64_t equal) {
    const struct nakvisk_layout source = layout_of(attribute(one)), target = layout_of(attribute(two));
    const uint64_t no_cast = equal ? 0 : NAKVISK_NO_CAST;
    struct nakvisk_plan plan;
    uint8_t text[NAKVISK_LISTING_SIZE];
    uint32_t written = 0;
    expect(title, nakvisk_index_of(source, attribute(two)).found, equal);
    expect(title, nakvisk_offset_of(source, attribute(two)).found, equal);
    expect(title, nakvisk_compare_without_offsets(source, target).same, equal);
    expect(title, nakvisk_for_layouts(source, target).refusal, no_cast);
    expect(title, nakvisk_for_layouts_with_default(source, target).refusal, no_cast);
    /* equal datatypes are no pair of a single point, so that no byte is needed */
    expect(title, nakvisk_convert_point(source, target, NULL, 0, NULL, 0), no_cast);
    memset(&plan, 0, sizeof plan);
    plan.source = source;
    plan.target = target;
    expect(title, nakvisk_set_custom_mapping(plan, 0, 0).refusal, no_cast);
    plan.count = 1;
    expect(title, nakvisk_list_plan(plan, text, sizeof text, &written), equal ? 0 : NAKVISK_NOT_SOUND);
}

static void pairs(void) {
    const uint64_t top = 1ULL << 63;
    const struct nakvisk_datatype seal = NAKVISK_CUSTOM_OF(16, 8, HIGH, LOW);
    const struct nakvisk_datatype others[] = {
        NAKVISK_CUSTOM_OF(15, 8, HIGH, LOW), NAKVISK_CUSTOM_OF(272, 8, HIGH, LOW),      NAKVISK_CUSTOM_OF(16, 0, HIGH, LOW),
        NAKVISK_CUSTOM_OF(16, 16, HIGH, LOW), NAKVISK_CUSTOM_OF(16, 8, HIGH ^ 1, LOW),  NAKVISK_CUSTOM_OF(16, 8, HIGH ^ top, LOW),
        NAKVISK_CUSTOM_OF(16, 8, HIGH, LOW ^ 1), NAKVISK_CUSTOM_OF(16, 8, HIGH, LOW ^ top), NAKVISK_CUSTOM_OF(16, 8, LOW, HIGH),
        NAKVISK_CUSTOM_OF(16, 8, 0, 0)};
    const struct nakvisk_datatype none = NAKVISK_CUSTOM_OF(16, 0, 0, 0), one = NAKVISK_CUSTOM_OF(16, 1, 0, 0);
    const struct nakvisk_datatype filled = {NAKVISK_F64, 16, 8, HIGH, LOW}, plain = NAKVISK_PLAIN(NAKVISK_F64);
    const struct nakvisk_datatype named = {NAKVISK_BYTE_ARRAY, 16, 8, HIGH, LOW}, array = NAKVISK_BYTE_ARRAY_OF(16);
    pair("the same Custom", seal, seal, 1);
    for (size_t i = 0; i < sizeof others / sizeof others[0]; i++) {
        pair("another Custom", seal, others[i], 0);
        pair("another Custom as the source", others[i], seal, 0);
    }
    pair("alignment 0 and 1", none, one, 0);
    for (uint8_t code = 0; code < NAKVISK_CUSTOM; code++) {
        const struct nakvisk_datatype other = {code, 16, 8, HIGH, LOW};
        pair("a Custom and another code", seal, other, 0);
        pair("another code and a Custom", other, seal, 0);
    }
    pair("an F64 with what it does not have", filled, plain, 1);
    pair("a ByteArray with what it does not have", named, array, 1);
}

/* Two points with N U32 at 0 and S, a Custom of 16 bytes, at 8: copied into points with S alone, and into columns. */
static void copies(void) {
    const struct nakvisk_point_range points = {NAKVISK_INTERLEAVED, 2, 0, 2}, columns = {NAKVISK_COLUMNS, 2, 0, 2};
    const struct nakvisk_attribute n = {{'N'}, 1, NAKVISK_PLAIN(NAKVISK_U32)};
    const struct nakvisk_layout empty = NAKVISK_EMPTY_LAYOUT;
    const struct nakvisk_layout_answer made = nakvisk_add_attribute(nakvisk_add_attribute(empty, n).layout, custom(16, 8));
    const struct nakvisk_plan alone = nakvisk_for_layouts(made.layout, layout_of(custom(16, 8))).plan;
    const struct nakvisk_plan whole = nakvisk_for_layouts(made.layout, made.layout).plan;
    uint8_t source[48], target[48];
    uint64_t lost = 7;
    lies("a Custom behind a U32", made, 8, 24, 8);
    for (size_t i = 0; i < sizeof source; i++) source[i] = (uint8_t) (i + 1);
    memset(target, 255, sizeof target);
    expect("into points", nakvisk_convert_by_plan(alone, source, 48, points, target, 32, points, &lost), 0);
    expect("components lost", lost, 0);
    expect("S of the first point", (uint64_t) memcmp(target, source + 8, 16), 0);
    expect("S of the second point", (uint64_t) memcmp(target + 16, source + 32, 16), 0);
    memset(target, 255, sizeof target);
    expect("into columns", nakvisk_convert_by_plan(whole, source, 48, points, target, 40, columns, &lost), 0);
    expect("N in its column", (uint64_t) memcmp(target, source, 4) | (uint64_t) memcmp(target + 4, source + 24, 4), 0);
    expect("S in its column", (uint64_t) memcmp(target + 8, source + 8, 16) | (uint64_t) memcmp(target + 24, source + 32, 16), 0);
    /* in a single point equal datatypes are passed over */
    memset(target, 255, sizeof target);
    expect("nakvisk_convert_point", nakvisk_convert_point(made.layout, made.layout, source, 24, target, 24), 0);
    for (size_t i = 0; i < 24; i++) expect("a byte of a single point", target[i], 255);
}

static void sheets(void) {
    /* S with the empty name, 16 bytes, alignment 8, by Default */
    const uint8_t sheet[] = {0x04, 0x08, 0x80, 0x08, 0x04, 0x07, 0x37, 0x96, 0x2a, 0x45, 0x8e, 0xa7,
                             0x9d, 0x4e, 0x03, 0xe9, 0x2d, 0x30, 0xdc, 0x72, 0x49, 0x80, 0x00};
    const uint8_t size_0[] = {0x04, 0x08, 0x80, 0x00, 0x00}, code_18[] = {0x04, 0x09, 0x00};
    const struct nakvisk_layout_answer made = nakvisk_layout_of_sheet(sheet, sizeof sheet);
    const struct nakvisk_datatype *datatype = &made.layout.attributes[0].definition.datatype;
    lies("a sheet", made, 0, 16, 8);
    expect("code of a sheet", datatype->code, NAKVISK_CUSTOM);
    expect("n of a sheet", datatype->n, 16);
    expect("alignment of a sheet", datatype->alignment, 8);
    expect("upper bits of a sheet's name", datatype->name_high, HIGH);
    expect("lower bits of a sheet's name", datatype->name_low, LOW);
    for (size_t length = 0; length < sizeof sheet; length++) {
        expect("a sheet that is cut off", nakvisk_layout_of_sheet(sheet, length).refusal, NAKVISK_SHEET_ENDS);
    }
    expect("a sheet with size 0", nakvisk_layout_of_sheet(size_0, sizeof size_0).refusal, NAKVISK_DATATYPE_SIZE);
    expect("a sheet with code 18", nakvisk_layout_of_sheet(code_18, sizeof code_18).refusal, NAKVISK_CODE);
}

int main(void) {
    sizes();
    places();
    pairs();
    copies();
    sheets();
    return wrong;
}
