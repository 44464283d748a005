/* null.c: each call that is lent bytes is lent NULL with length 0, and answers as for any other empty run of bytes. bindings/test builds it as C
 * and as C++. */
#include <stdio.h>

#include "nakvisk.h"

static int wrong = 0;

static void expect(const char *call, uint32_t number, uint32_t due) {
    if (number != due) {
        printf("null: %s gives %u and not %u\n", call, (unsigned) number, (unsigned) due);
        wrong = 1;
    }
}

int main(void) {
    const struct nakvisk_layout empty = NAKVISK_EMPTY_LAYOUT;
    const struct nakvisk_attribute none = {{0}, 0, NAKVISK_PLAIN(NAKVISK_U8)};
    const uint8_t zero[1] = {0};
    const struct nakvisk_view nothing = {0, 0, 0};
    const struct nakvisk_point_range no_point = {NAKVISK_INTERLEAVED, 0, 0, 0}, no_value = {NAKVISK_COLUMNS, 0, 0, 0};
    const struct nakvisk_point_range five = {NAKVISK_INTERLEAVED, 5, 0, 5}, five_of_columns = {NAKVISK_COLUMNS, 5, 0, 5};
    struct nakvisk_layout byte;
    struct nakvisk_plan plan;
    uint32_t number = 7;
    uint64_t lost = 7;

    expect("nakvisk_version", nakvisk_version(), NAKVISK_VERSION);

    /* no sheet is empty */
    expect("nakvisk_layout_of_sheet", nakvisk_layout_of_sheet(NULL, 0).refusal, NAKVISK_SHEET_ENDS);
    expect("nakvisk_point_size", nakvisk_point_size(NULL, 0, &number), NAKVISK_SHEET_ENDS);
    expect("nakvisk_plan_of_input", nakvisk_plan_of_input(NULL, 0).refusal, NAKVISK_SHEET_ENDS);
    expect("nakvisk_plan_of_sheets", nakvisk_plan_of_sheets(zero, 1, zero, 1, NULL, 0).refusal, NAKVISK_SHEET_ENDS);
    expect("nakvisk_plan_of_mapping_sheet", nakvisk_plan_of_mapping_sheet(empty, empty, NULL, 0).refusal, NAKVISK_SHEET_ENDS);
    expect("nakvisk_list", nakvisk_list(zero, 1, NULL, 0, zero, 1, NULL, 0, &number), NAKVISK_SHEET_ENDS);
    expect("number of a refused call", number, 7);

    /* no member, no point, no text, no value, and the empty name */
    expect("nakvisk_layout_of_members", nakvisk_layout_of_members(NULL, 0, 1).refusal, 0);
    byte = nakvisk_add_attribute(empty, none).layout;
    expect("nakvisk_get_attribute_by_name", nakvisk_get_attribute_by_name(byte, NULL, 0).found, 1);
    plan = nakvisk_for_layouts(byte, byte).plan;
    expect("nakvisk_convert_by_plan", nakvisk_convert_by_plan(plan, NULL, 0, no_point, NULL, 0, no_value, &lost), 0);
    expect("components lost", (uint32_t) lost, 0);
    expect("nakvisk_convert_by_plan of columns", nakvisk_convert_by_plan(plan, NULL, 0, no_value, NULL, 0, no_point, &lost), 0);
    expect("nakvisk_convert_by_mapping", nakvisk_convert_by_mapping(plan, NULL, 0, no_point, NULL, 0, no_value).refusal, 0);
    expect("nakvisk_convert_uncounted", nakvisk_convert_uncounted(plan, NULL, 0, no_value, NULL, 0, no_point), 0);
    expect("nakvisk_convert", nakvisk_convert(zero, 1, zero, 1, zero, 1, NULL, 0, five, NULL, 0, five_of_columns, &lost), 0);
    expect("nakvisk_list_plan", nakvisk_list_plan(plan, NULL, 0, &number), 0);
    expect("length of a listing that does not fit", number, 40);
    expect("nakvisk_convert_point", nakvisk_convert_point(byte, byte, NULL, 0, NULL, 0), 0);
    expect("nakvisk_view_of", nakvisk_view_of(byte, 0, 0, NULL, 0).refusal, 0);
    expect("nakvisk_read_point", nakvisk_read_point(byte, 0, 0, NULL, 0, 0).refusal, NAKVISK_SOURCE_RANGE);
    expect("nakvisk_write_point", nakvisk_write_point(byte, 0, 0, NULL, 0, 0, NULL, 0), NAKVISK_SOURCE_RANGE);
    expect("nakvisk_read_part", nakvisk_read_part(nothing, NULL, 0, 9).refusal, 0);
    expect("nakvisk_write_part", nakvisk_write_part(nothing, NULL, 0, 9, NULL, 0), 0);
    return wrong;
}
