/* layouts.c: layouts by value from C. It makes two layouts attribute by attribute, converts one point, reads an
 * attribute of one of two points, and shows refusals 1, 18 and 20.
 * Build it at the repository's root, after `crates/nakvisk_c/build`:
 *   gcc -Iinclude examples/layouts.c target/staticlib/libnakvisk.a -o target/layouts */
#include <stdio.h>
#include <stdlib.h>
#include <string.h>

#include "nakvisk.h"

/* Ends the program where a call was refused. */
static struct nakvisk_layout accepted(struct nakvisk_layout_answer answer) {
    if (answer.refusal != 0) {
        fprintf(stderr, "refused %u\n", (unsigned) answer.refusal);
        exit(1);
    }
    return answer.layout;
}

/* An attribute of a name of one letter; the code says the whole datatype. */
static struct nakvisk_attribute attribute(char name, uint8_t code) {
    struct nakvisk_attribute made = {{(uint8_t) name}, 1, NAKVISK_PLAIN(code)};
    return made;
}

static void show(const char *title, const struct nakvisk_layout *layout) {
    printf("%s: point size %u, alignment %u\n", title, (unsigned) layout->size, (unsigned) layout->alignment);
    for (size_t i = 0; i < layout->count; i++) {
        const struct nakvisk_member *member = &layout->attributes[i];
        printf("  %.*s at %u, code %u\n", (int) member->definition.name_len, (const char *) member->definition.name,
               (unsigned) member->offset, (unsigned) member->definition.datatype.code);
    }
}

int main(void) {
    const struct nakvisk_layout empty = NAKVISK_EMPTY_LAYOUT;
    const uint8_t source_point[4] = {0x2c, 0x01, 5, 0};
    const uint8_t points[2 * 4] = {0x2c, 0x01, 5, 0, 0xff, 0xff, 6, 0};
    uint8_t target_point[8] = {0};
    struct nakvisk_layout source, target, unsound;
    struct nakvisk_part part;
    float value;

    /* P U16, then C U8, by Default; C U8, then P F32, Packed of 1. */
    source = accepted(nakvisk_add_attribute(accepted(nakvisk_add_attribute(empty, attribute('P', NAKVISK_U16))), attribute('C', NAKVISK_U8)));
    target = accepted(nakvisk_add_attribute_packed(empty, attribute('C', NAKVISK_U8), 1));
    target = accepted(nakvisk_add_attribute_packed(target, attribute('P', NAKVISK_F32), 1));
    show("source", &source);
    show("target", &target);

    /* P is cast. C has the same datatype on both sides, and its byte stays. */
    printf("convert a point: %u\n", (unsigned) nakvisk_convert_point(source, target, source_point, 4, target_point, 8));
    memcpy(&value, target_point + target.attributes[1].offset, sizeof value);
    printf("target point: C is %u, P is %g\n", (unsigned) target_point[0], (double) value);

    part = nakvisk_read_point(source, 1, 2, points, sizeof points, 1);
    printf("C of point 1: refusal %u, %u byte at %u, which is %u\n", (unsigned) part.refusal, (unsigned) part.size,
           (unsigned) part.start, (unsigned) points[part.start]);

    unsound = target;
    unsound.alignment = 3;
    printf("a layout of alignment 3: refused %u\n", (unsigned) nakvisk_add_attribute(unsound, attribute('D', NAKVISK_U8)).refusal);
    printf("a source point of 1 byte: refused %u\n",
           (unsigned) nakvisk_convert_point(source, target, source_point, 1, target_point, 8));
    printf("point 2 of two: refused %u\n", (unsigned) nakvisk_read_point(source, 1, 2, points, sizeof points, 2).refusal);
    return 0;
}
