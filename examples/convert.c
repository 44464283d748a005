/* convert.c: document 01's example from C. It lists the plan of three sheets, converts two of three points, tells how many components were
 * lost, and shows a refusal.
 * Build it at the repository's root, after `crates/nakvisk_c/build`:
 *   gcc -Iinclude examples/convert.c target/staticlib/libnakvisk.a -o target/convert */
#include <stdio.h>
#include <stdlib.h>
#include <string.h>

#include "nakvisk.h"

/* P U16 and C U8, placed by Default: a point of 4 bytes. */
static const uint8_t source_sheet[] = {0x08, 0x15, 0x01, 0x00, 0x05, 0x0c, 0x00, 0x00};
/* P F32, given at offset 4, alignment 4: a point of 8 bytes. */
static const uint8_t target_sheet[] = {0x06, 0x00, 0x08, 0x15, 0x04, 0x00, 0x02, 0x00};
/* Every target attribute by name, and no line. */
static const uint8_t mapping_sheet[] = {0x00};

enum { POINTS = 3 };

/* Ends the program where a call was refused. */
static void accepted(const char *call, uint32_t number) {
    if (number != 0) {
        fprintf(stderr, "%s: refused %u\n", call, (unsigned) number);
        exit(1);
    }
}

static uint32_t size_of_point(const uint8_t *sheet, size_t length) {
    uint32_t size = 0;
    accepted("nakvisk_point_size", nakvisk_point_size(sheet, length, &size));
    return size;
}

static void list(void) {
    uint8_t text[NAKVISK_LISTING_SIZE];
    uint32_t written = 0;
    accepted("nakvisk_list", nakvisk_list(source_sheet, sizeof source_sheet, target_sheet, sizeof target_sheet,
                                          mapping_sheet, sizeof mapping_sheet, text, sizeof text, &written));
    fwrite(text, 1, written, stdout);
}

/* The source's points 1 and 2 into the target's points 0 and 1. */
static uint32_t convert(const uint8_t *source, size_t source_length, uint8_t *target, size_t target_length, uint64_t *lost) {
    const struct nakvisk_point_range from = {NAKVISK_INTERLEAVED, POINTS, 1, 3}, to = {NAKVISK_INTERLEAVED, POINTS, 0, 2};
    return nakvisk_convert(source_sheet, sizeof source_sheet, target_sheet, sizeof target_sheet, mapping_sheet, sizeof mapping_sheet,
                           source, source_length, from, target, target_length, to, lost);
}

static void show(const uint8_t *target, size_t size) {
    for (size_t point = 0; point < POINTS; point++) {
        float value;
        memcpy(&value, target + point * size + 4, sizeof value);
        printf("target point %zu: P is %g\n", point, (double) value);
    }
}

int main(void) {
    const uint8_t source[POINTS * 4] = {0x01, 0x00, 5, 0, 0x2c, 0x01, 6, 0, 0xff, 0xff, 7, 0};
    uint8_t target[POINTS * 8] = {0};
    uint32_t source_size = size_of_point(source_sheet, sizeof source_sheet);
    uint32_t target_size = size_of_point(target_sheet, sizeof target_sheet);
    uint64_t lost = 0;

    printf("a source point has %u bytes, a target point %u\n", (unsigned) source_size, (unsigned) target_size);
    list();
    accepted("nakvisk_convert", convert(source, sizeof source, target, sizeof target, &lost));
    show(target, target_size);
    printf("components lost: %llu\n", (unsigned long long) lost);

    memset(target, 0, sizeof target);
    printf("a source that is a byte short: refused %u\n",
           (unsigned) convert(source, sizeof source - 1, target, sizeof target, &lost));
    show(target, target_size);
    return 0;
}
