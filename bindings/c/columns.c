/* columns.c: a number of storage is columns unless it is 0, on either side; points become columns and come back; and refusal 22 stands in the
 * place of 15 or 16, source first. bindings/test builds it as C and as C++. */
#include <stdio.h>
#include <string.h>

#include "nakvisk.h"

static int wrong = 0;

static void expect(const char *title, uint32_t number, uint32_t due) {
    if (number != due) {
        printf("columns: %s: %u and not %u\n", title, (unsigned) number, (unsigned) due);
        wrong = 1;
    }
}

static void same(const char *title, const uint8_t *bytes, const uint8_t *due, size_t length) {
    expect(title, memcmp(bytes, due, length) == 0, 1);
}

/* All of so many points. */
static struct nakvisk_point_range all(uint32_t storage, uint32_t count) {
    struct nakvisk_point_range made;
    made.storage = storage;
    made.count = count;
    made.start = 0;
    made.end = count;
    return made;
}

int main(void) {
    /* A U8 at 0 and B U16 at 2, a byte of padding between them: 4 bytes to a point, 3 as columns */
    const struct nakvisk_layout empty = NAKVISK_EMPTY_LAYOUT;
    const struct nakvisk_attribute a = {{'A'}, 1, NAKVISK_PLAIN(NAKVISK_U8)}, b = {{'B'}, 1, NAKVISK_PLAIN(NAKVISK_U16)};
    const struct nakvisk_layout layout = nakvisk_add_attribute(nakvisk_add_attribute(empty, a).layout, b).layout;
    const struct nakvisk_plan plan = nakvisk_for_layouts(layout, layout).plan;
    const uint8_t points[8] = {1, 9, 11, 21, 2, 9, 12, 22}, columns[6] = {1, 2, 11, 21, 12, 22};
    const uint8_t back[8] = {1, 7, 11, 21, 2, 7, 12, 22};
    const uint8_t sheet[] = {0x04, 0x00, 0x00, 0x00}, by_name[] = {0x00}; /* a U8 of the empty name */
    const uint32_t numbers[] = {NAKVISK_COLUMNS, 2, 7, 0x100, 0x10000, 0x80000000u, 0xffffffffu};
    uint8_t target[9];
    uint64_t lost = 7;

    for (size_t i = 0; i < sizeof numbers / sizeof numbers[0]; i++) {
        const struct nakvisk_point_range stored = all(numbers[i], 2), whole = all(NAKVISK_INTERLEAVED, 2);
        memset(target, 7, sizeof target);
        expect("into columns", nakvisk_convert_by_plan(plan, points, 8, whole, target, 6, stored, &lost), 0);
        same("columns", target, columns, 6);
        memset(target, 7, sizeof target);
        expect("back", nakvisk_convert_by_plan(plan, columns, 6, stored, target, 8, whole, &lost), 0);
        same("points, with the padding of the target", target, back, 8);
        memset(target, 7, sizeof target);
        expect("columns into columns", nakvisk_convert_by_plan(plan, columns, 6, stored, target, 6, stored, &lost), 0);
        same("the same columns", target, columns, 6);

        memset(target, 7, sizeof target);
        expect("both wrong, source columns", nakvisk_convert_by_plan(plan, points, 8, stored, target, 9, whole, &lost), NAKVISK_COLUMN_LENGTH);
        expect("both wrong, target columns", nakvisk_convert_by_plan(plan, columns, 6, whole, target, 9, stored, &lost), NAKVISK_SOURCE_LENGTH);
        expect("both wrong, both columns", nakvisk_convert_by_plan(plan, points, 8, stored, target, 9, stored, &lost), NAKVISK_COLUMN_LENGTH);
        expect("target wrong, source columns", nakvisk_convert_by_plan(plan, columns, 6, stored, target, 9, whole, &lost), NAKVISK_TARGET_LENGTH);
        expect("target wrong, target columns", nakvisk_convert_by_plan(plan, points, 8, whole, target, 9, stored, &lost), NAKVISK_COLUMN_LENGTH);
        expect("sheets", nakvisk_convert(sheet, 4, sheet, 4, by_name, 1, points, 8, stored, target, 2, whole, &lost), NAKVISK_COLUMN_LENGTH);
        for (size_t k = 0; k < sizeof target; k++) expect("a byte after refusals", target[k], 7);
    }
    return wrong;
}
