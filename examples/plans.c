/* plans.c: a reader of scans in C. It makes a plan once, from two layouts of its own, and converts two buffers by it, the second into columns
 * too; it looks attributes up, writes one attribute of a point, and shows refusals 1, 13 and 22.
 * Build it at the repository's root, after `crates/nakvisk_c/build`:
 *   gcc -Iinclude examples/plans.c target/staticlib/libnakvisk.a -o target/plans */
#include <stdio.h>
#include <stdlib.h>
#include <string.h>

#include "nakvisk.h"

/* Ends the program where a call was refused. */
static void accepted(const char *call, uint32_t number) {
    if (number != 0) {
        fprintf(stderr, "%s: refused %u\n", call, (unsigned) number);
        exit(1);
    }
}

static struct nakvisk_attribute attribute(const char *name, uint8_t code) {
    struct nakvisk_attribute made = {{0}, 0, NAKVISK_PLAIN(code)};
    made.name_len = (uint8_t) strlen(name);
    memcpy(made.name, name, made.name_len);
    return made;
}

/* The scanner's records: Z in millimetres at 4, the intensity at 0; 8 bytes. */
static struct nakvisk_layout scanner(void) {
    struct nakvisk_member members[2];
    struct nakvisk_layout_answer made;
    members[0].definition = attribute("Z", NAKVISK_I32);
    members[0].offset = 4;
    members[1].definition = attribute("Intensity", NAKVISK_U16);
    members[1].offset = 0;
    made = nakvisk_layout_of_members(members, 2, 4);
    accepted("nakvisk_layout_of_members", made.refusal);
    return made.layout;
}

/* The reader's own: the intensity as a float, then the height as a double. */
static struct nakvisk_layout reader(void) {
    const struct nakvisk_layout empty = NAKVISK_EMPTY_LAYOUT;
    struct nakvisk_layout_answer made = nakvisk_add_attribute(empty, attribute("Intensity", NAKVISK_F32));
    accepted("nakvisk_add_attribute", made.refusal);
    made = nakvisk_add_attribute(made.layout, attribute("Height", NAKVISK_F64));
    accepted("nakvisk_add_attribute", made.refusal);
    return made.layout;
}

/* By name, and Height from Z. */
static struct nakvisk_plan plan_between(struct nakvisk_layout source, struct nakvisk_layout target) {
    struct nakvisk_found z = nakvisk_get_attribute_by_name(source, (const uint8_t *) "Z", 1);
    struct nakvisk_found height = nakvisk_index_of(target, attribute("Height", NAKVISK_F64));
    struct nakvisk_plan_answer made = nakvisk_for_layouts_with_default(source, target);
    accepted("nakvisk_for_layouts_with_default", made.refusal);
    printf("Z is attribute %u of the scanner, Height %u of the reader\n", (unsigned) z.at, (unsigned) height.at);
    made = nakvisk_set_custom_mapping(made.plan, (uint32_t) z.at, (uint32_t) height.at);
    accepted("nakvisk_set_custom_mapping", made.refusal);
    return made.plan;
}

static void list(struct nakvisk_plan plan) {
    uint8_t text[NAKVISK_LISTING_SIZE];
    uint32_t written = 0;
    accepted("nakvisk_list_plan", nakvisk_list_plan(plan, text, sizeof text, &written));
    fwrite(text, 1, written, stdout);
}

static void show(struct nakvisk_plan plan, const uint8_t *points, size_t length) {
    struct nakvisk_view_answer heights = nakvisk_view_of(plan.target, 1, (uint32_t) (length / plan.target.size), points, length);
    accepted("nakvisk_view_of", heights.refusal);
    for (uint64_t i = 0; i < length / plan.target.size; i++) {
        struct nakvisk_part part = nakvisk_read_part(heights.view, points, length, i);
        double height;
        accepted("nakvisk_read_part", part.refusal);
        memcpy(&height, points + part.start, sizeof height);
        printf("  height %g\n", height);
    }
}

/* The points of two records as columns: both intensities, then both heights. */
static void show_columns(struct nakvisk_plan plan, const uint8_t *records, size_t length) {
    const struct nakvisk_point_range from = {NAKVISK_INTERLEAVED, 2, 0, 2}, to = {NAKVISK_COLUMNS, 2, 0, 2};
    uint8_t columns[2 * 4 + 2 * 8];
    float intensities[2];
    double heights[2];
    uint64_t lost = 0;
    accepted("nakvisk_convert_by_plan", nakvisk_convert_by_plan(plan, records, length, from, columns, sizeof columns, to, &lost));
    memcpy(intensities, columns, sizeof intensities);
    memcpy(heights, columns + sizeof intensities, sizeof heights);
    printf("columns: intensities %g %g, heights %g %g\n", (double) intensities[0], (double) intensities[1], heights[0], heights[1]);
    printf("columns that are a byte short: refused %u\n",
           (unsigned) nakvisk_convert_by_plan(plan, records, length, from, columns, sizeof columns - 1, to, &lost));
}

int main(void) {
    const struct nakvisk_layout source = scanner(), target = reader();
    struct nakvisk_plan plan = plan_between(source, target);
    uint8_t records[2 * 8] = {10, 0, 0, 0, 0xe8, 0x03, 0, 0, 20, 0, 0, 0, 0xff, 0xff, 0xff, 0xff};
    uint8_t points[2 * 16] = {0};
    const uint8_t two[4] = {2, 0, 0, 0};
    const struct nakvisk_point_range both = {NAKVISK_INTERLEAVED, 2, 0, 2};
    uint64_t lost = 0;

    if (nakvisk_version() != NAKVISK_VERSION) return 1;
    list(plan);
    for (int buffer = 0; buffer < 2; buffer++) {
        accepted("nakvisk_convert_by_plan",
                 nakvisk_convert_by_plan(plan, records, sizeof records, both, points, sizeof points, both, &lost));
        printf("buffer %d\n", buffer);
        show(plan, points, sizeof points);
        /* Z of the second record becomes 2. */
        accepted("nakvisk_write_point", nakvisk_write_point(source, 0, 2, records, sizeof records, 1, two, sizeof two));
    }
    show_columns(plan, records, sizeof records);

    printf("the layouts have the same attributes: %u\n", (unsigned) nakvisk_compare_without_offsets(source, target).same);
    printf("Height as a float: found %u\n", (unsigned) nakvisk_offset_of(target, attribute("Height", NAKVISK_F32)).found);
    printf("a mapping onto attribute 2: refused %u\n", (unsigned) nakvisk_set_custom_mapping(plan, 0, 2).refusal);
    plan.mappings[1] = plan.mappings[0];
    printf("a plan with one target twice: refused %u\n",
           (unsigned) nakvisk_convert_by_plan(plan, records, sizeof records, both, points, sizeof points, both, &lost));
    return 0;
}
