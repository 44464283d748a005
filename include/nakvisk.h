/* nakvisk.h: the library's functions for C and C++. The archive is target/staticlib/libnakvisk.a, which `crates/nakvisk_c/build` writes.
 *
 * Bytes are lent as a pointer and a length; where the length is 0 nothing is read and the pointer may be NULL. A place that a function may
 * change (target, text, size, written, lost, target_point, point_data of the calls that write) overlaps nothing else that is lent to the
 * same call, and no other thread changes lent bytes meanwhile. Datatypes, attributes, layouts, plans, views and ranges are passed by value,
 * and so are answers handed back.
 *
 * Every function but nakvisk_version returns 0, or the number of the first refusal that applies; one that returns a struct has it in the
 * field refusal. The pointers size, written and lost are never NULL. On a refusal everything that was lent is as it was, and the rest of a
 * struct says nothing. No sheet, layout, plan, view, buffer, count or range makes a call fail in another way. Nothing is kept between calls, so
 * calls may run at once.
 *
 * Every function is proved to do what its sentence says: crates/nakvisk/src has the contracts, crates/nakvisk/specs their definitions.
 */
#ifndef NAKVISK_H
#define NAKVISK_H

#include <stddef.h>
#include <stdint.h>

#ifdef __cplusplus
extern "C" {
#endif

/* ---- version */

/* The version of this header, 0.8.0: 16 bits of the major number, 8 of the minor one, 8 of the patch. A struct, a function, the meaning
 * of a number or the bytes that an accepted call gives change only with the major number, or, while that is 0, with the minor one; refusals
 * and functions may be added with each. */
#define NAKVISK_VERSION 0x000800u

/* nakvisk_version: the version of the archive. Where it is not NAKVISK_VERSION, header and archive are not of one build. */
uint32_t nakvisk_version(void);

/* ---- limits and refusals */

/* The most attributes of a layout, and the most mappings of a plan. */
#define NAKVISK_MOST_ATTRIBUTES 32

/* The most bytes of an attribute's name. */
#define NAKVISK_MOST_NAME 31

/* Bytes that are enough for every listing. */
#define NAKVISK_LISTING_SIZE 1996

/* The refusals. A later version may have more. */
enum nakvisk_refusal {
    NAKVISK_NOT_SOUND = 1,          /* A layout or plan handed in is not sound. */
    NAKVISK_SHEET_ENDS = 2,         /* A sheet ends inside a field. */
    NAKVISK_TOO_MANY = 3,           /* There are more than 32 attributes or lines. */
    NAKVISK_NAME = 4,               /* A name has over 31 bytes or a byte outside hex 20 to 7E. */
    NAKVISK_CODE = 5,               /* A datatype code is above 17. */
    NAKVISK_DATATYPE_SIZE = 6,      /* A ByteArray or a Custom has size 0, or a sheet gives a length below 256 in 16 bits. */
    NAKVISK_SHEET_GOES_ON = 7,      /* Fill bits are not zero, or a byte follows. */
    NAKVISK_NAME_TWICE = 8,         /* A name already stands in the list. */
    NAKVISK_SHARED_BYTE = 9,        /* Two attributes share a byte. */
    NAKVISK_ALIGNMENT = 10,         /* The layout's alignment is 0 or no power of two. */
    NAKVISK_TOO_LARGE = 11,         /* An end or the size passes 65,535. */
    NAKVISK_NO_SOURCE = 12,         /* `for_layouts` finds no source of that name. */
    NAKVISK_NO_PLACE = 13,          /* A place is not in its list. */
    NAKVISK_NO_CAST = 14,           /* The pair has neither copy nor cast. */
    NAKVISK_SOURCE_LENGTH = 15,     /* The source buffer is not count times point size long. */
    NAKVISK_TARGET_LENGTH = 16,     /* The target buffer is not count times point size long. */
    NAKVISK_RANGES_DIFFER = 17,     /* The ranges' lengths differ. */
    NAKVISK_SOURCE_RANGE = 18,      /* The source range's end passes the count, or the part of a view's point passes the view's lent bytes. */
    NAKVISK_TARGET_RANGE = 19,      /* The target range's end passes the count. */
    NAKVISK_POINT_ENDS = 20,        /* A lent single point, source or target, ends before the end of a paired attribute. */
    NAKVISK_BACKWARD_RANGE = 21,    /* A range starts after its end. */
    NAKVISK_COLUMN_LENGTH = 22      /* A column buffer is not count times the sum of attribute sizes long. */
};

/* ---- datatypes, attributes and layouts */

/* The codes of the datatypes. */
enum nakvisk_code {
    NAKVISK_U8 = 0,
    NAKVISK_I8 = 1,
    NAKVISK_U16 = 2,
    NAKVISK_I16 = 3,
    NAKVISK_U32 = 4,
    NAKVISK_I32 = 5,
    NAKVISK_U64 = 6,
    NAKVISK_I64 = 7,
    NAKVISK_F32 = 8,
    NAKVISK_F64 = 9,
    NAKVISK_VEC3_U8 = 10,
    NAKVISK_VEC3_U16 = 11,
    NAKVISK_VEC3_F32 = 12,
    NAKVISK_VEC3_I32 = 13,
    NAKVISK_VEC3_F64 = 14,
    NAKVISK_VEC4_U8 = 15,
    NAKVISK_BYTE_ARRAY = 16,
    NAKVISK_CUSTOM = 17
};

/* A datatype. Any numbers may stand here: what is no datatype is refused by the call that is handed it. What a code does not have is not
 * looked at. Two are equal where their codes are and, of a ByteArray, n; of a Custom, n, alignment and name. A Custom is copied onto an
 * equal one, and is cast to nothing. */
struct nakvisk_datatype {
    uint8_t code;       /* 0 to 17 */
    uint16_t n;         /* the bytes of a ByteArray or of a Custom, 1 to 65,535 */
    uint8_t alignment;  /* the minimum alignment of a Custom; 0 pads nothing, nor does 1, but the two are not equal */
    uint64_t name_high; /* the upper 64 bits of a Custom's name, which come first in a sheet: a UUID's first eight bytes, big-endian */
    uint64_t name_low;  /* the lower 64 bits */
};

/* Initializers of a datatype: struct nakvisk_datatype d = NAKVISK_PLAIN(NAKVISK_F64); NAKVISK_PLAIN is for the codes 0 to 15. In C++ the numbers
 * are constants, or of the fields' types. */
#define NAKVISK_PLAIN(code) { (code), 0, 0, 0, 0 }
#define NAKVISK_BYTE_ARRAY_OF(n) { NAKVISK_BYTE_ARRAY, (n), 0, 0, 0 }
#define NAKVISK_CUSTOM_OF(n, alignment, name_high, name_low) { NAKVISK_CUSTOM, (n), (alignment), (name_high), (name_low) }

/* What nakvisk_datatype_of hands back. */
struct nakvisk_datatype_answer {
    uint32_t refusal;   /* 0, or the number of the refusal */
    uint32_t size;      /* the bytes of a value; 0 where it is refused */
    uint32_t alignment; /* 0 where it is refused; a Custom may have 0 too */
};

/* nakvisk_datatype_of: gives the size and the alignment of a datatype. Refused with 5, 6. */
struct nakvisk_datatype_answer nakvisk_datatype_of(struct nakvisk_datatype datatype);

/* An attribute. Any numbers may stand here: what a layout cannot have is refused. */
struct nakvisk_attribute {
    uint8_t name[NAKVISK_MOST_NAME]; /* the first name_len bytes are the name, and the others are not looked at */
    uint8_t name_len;                /* 0 to 31 */
    struct nakvisk_datatype datatype;
};

/* An attribute in a layout. */
struct nakvisk_member {
    struct nakvisk_attribute definition;
    uint16_t offset; /* from the start of a point to the attribute, in bytes */
};

/* A layout. A program may fill one in: one that is not sound is refused with 1. */
struct nakvisk_layout {
    struct nakvisk_member attributes[NAKVISK_MOST_ATTRIBUTES]; /* the first count are listed, and the others are not looked at */
    uint8_t count;
    uint16_t size;      /* the bytes of a point */
    uint16_t alignment; /* a power of two of which size is a multiple */
};

/* The empty layout, from which attributes are added: struct nakvisk_layout layout = NAKVISK_EMPTY_LAYOUT; */
#define NAKVISK_EMPTY_LAYOUT { {{{{0}, 0, NAKVISK_PLAIN(NAKVISK_U8)}, 0}}, 0, 0, 1 }

/* What a call that makes a layout hands back. */
struct nakvisk_layout_answer {
    uint32_t refusal;             /* 0, or the number of the refusal */
    struct nakvisk_layout layout; /* the empty layout where it is refused */
};

/* nakvisk_layout_of_sheet: gives the layout of a sheet. Refused with 2 to 11. */
struct nakvisk_layout_answer nakvisk_layout_of_sheet(const uint8_t *layout_sheet, size_t layout_sheet_length);

/* nakvisk_layout_of_members: gives the layout of a lent list of members, each at its offset, in any order; a datatype's own alignment is not
 * looked at. The point size is the greatest end, aligned to the alignment. Refused with 3 to 6, 8 to 11. */
struct nakvisk_layout_answer nakvisk_layout_of_members(
    const struct nakvisk_member *members, size_t members_length, uint16_t alignment);

/* nakvisk_add_attribute: gives the layout with one attribute more, placed by Default: at the end of the last one, aligned to its own
 * alignment; the layout's alignment becomes the larger of the old one and that. Refused with 1, 3 to 6, 8 to 11. */
struct nakvisk_layout_answer nakvisk_add_attribute(struct nakvisk_layout layout, struct nakvisk_attribute attribute);

/* nakvisk_add_attribute_packed: gives the layout with one attribute more, Packed of p: aligned to the smaller of its own alignment and p;
 * the layout's alignment becomes the smaller of the old one and p. Refused as nakvisk_add_attribute is. */
struct nakvisk_layout_answer nakvisk_add_attribute_packed(
    struct nakvisk_layout layout, struct nakvisk_attribute attribute, uint8_t p);

/* nakvisk_point_size: puts the point size of the layout that a sheet gives into *size. Refused with 2 to 11. */
uint32_t nakvisk_point_size(const uint8_t *layout_sheet, size_t layout_sheet_length, uint32_t *size);

/* ---- lookups in layouts */

/* What a lookup hands back. That there is no such attribute is no refusal. */
struct nakvisk_found {
    uint32_t refusal; /* 0, or the number of the refusal */
    uint32_t found;   /* 1 where there is such an attribute, else 0 */
    uint64_t at;      /* its place, counted from 0, or its offset, as the call says; 0 where there is none */
};

/* nakvisk_get_attribute_by_name: finds the place of the attribute of that name. Refused with 1, 4. */
struct nakvisk_found nakvisk_get_attribute_by_name(struct nakvisk_layout layout, const uint8_t *name, size_t name_length);

/* nakvisk_index_of: finds the place of the attribute of that name and datatype. Refused with 1, 4 to 6. */
struct nakvisk_found nakvisk_index_of(struct nakvisk_layout layout, struct nakvisk_attribute attribute);

/* nakvisk_offset_of: finds the offset of the attribute of that name and datatype. Refused with 1, 4 to 6. */
struct nakvisk_found nakvisk_offset_of(struct nakvisk_layout layout, struct nakvisk_attribute attribute);

/* What the comparison hands back. */
struct nakvisk_compared {
    uint32_t refusal; /* 0, or the number of the refusal */
    uint32_t same;    /* 1 where the layouts have the same attributes, else 0 */
};

/* nakvisk_compare_without_offsets: tells whether two layouts have the same attributes by name and datatype, in any order and at any offset.
 * Refused with 1. */
struct nakvisk_compared nakvisk_compare_without_offsets(struct nakvisk_layout layout, struct nakvisk_layout other);

/* ---- plans */

/* The target attribute at its place is made from the source attribute at its place; places count from 0. */
struct nakvisk_mapping {
    uint8_t source;
    uint8_t target;
};

/* A plan: how points of one layout become points of another. A program may fill one in: one that is not sound is refused with 1. It is sound
 * where both layouts are, each place is in its list, no target stands twice, and each pair of datatypes has a copy or a cast. */
struct nakvisk_plan {
    struct nakvisk_layout source;
    struct nakvisk_layout target;
    struct nakvisk_mapping mappings[NAKVISK_MOST_ATTRIBUTES]; /* the first count are listed, and the others are not looked at */
    uint8_t count;
};

/* What a call that makes a plan hands back. */
struct nakvisk_plan_answer {
    uint32_t refusal;         /* 0, or the number of the refusal */
    struct nakvisk_plan plan; /* the plan of two empty layouts and no mapping where it is refused */
};

/* nakvisk_plan_of_sheets: gives the plan of two layout sheets and a mapping sheet. Refused with 2 to 14: the source sheet is taken through
 * all its checks, then the target sheet, then the mapping sheet. */
struct nakvisk_plan_answer nakvisk_plan_of_sheets(
    const uint8_t *source_sheet, size_t source_sheet_length,
    const uint8_t *target_sheet, size_t target_sheet_length,
    const uint8_t *mapping_sheet, size_t mapping_sheet_length);

/* nakvisk_plan_of_input: gives the plan of three sheets in one input, each after its 16-bit length, most significant byte first, as the
 * program scanplan reads them. Refused with 2 to 14. */
struct nakvisk_plan_answer nakvisk_plan_of_input(const uint8_t *input, size_t input_length);

/* nakvisk_plan_of_mapping_sheet: gives the plan that a mapping sheet says between two layouts. Refused with 1 to 3, 7, 12 to 14. */
struct nakvisk_plan_answer nakvisk_plan_of_mapping_sheet(
    struct nakvisk_layout source_layout, struct nakvisk_layout target_layout,
    const uint8_t *mapping_sheet, size_t mapping_sheet_length);

/* nakvisk_for_layouts: gives the plan that maps every target attribute from the source attribute of its name. Refused with 1, 12, 14. */
struct nakvisk_plan_answer nakvisk_for_layouts(struct nakvisk_layout source_layout, struct nakvisk_layout target_layout);

/* nakvisk_for_layouts_with_default: the same, but target attributes whose name no source attribute has are passed over. Refused with 1, 14. */
struct nakvisk_plan_answer nakvisk_for_layouts_with_default(
    struct nakvisk_layout source_layout, struct nakvisk_layout target_layout);

/* nakvisk_set_custom_mapping: gives the plan in which the target attribute at its place is made from the source attribute at its place: the
 * mapping of that target is replaced, or joins the end. Refused with 1, 13, 14. */
struct nakvisk_plan_answer nakvisk_set_custom_mapping(struct nakvisk_plan plan, uint32_t source_place, uint32_t target_place);

/* ---- conversion of buffers */

/* How the values of a buffer's points lie. A buffer of interleaved points holds its count times its point size bytes, point after point. A
 * buffer of columns holds for each attribute in list order the values of all its points one after another, without padding: its count times
 * the sum of the attribute sizes bytes. */
enum nakvisk_storage {
    NAKVISK_INTERLEAVED = 0,
    NAKVISK_COLUMNS = 1
};

/* Points of a buffer: those from start to before end, counted from 0. A range that ends where it starts has no point. Any numbers may stand
 * here: what a buffer cannot have is refused. */
struct nakvisk_point_range {
    uint32_t storage; /* NAKVISK_INTERLEAVED, or NAKVISK_COLUMNS, which any number but 0 stands for */
    uint32_t count;   /* the points of the whole buffer */
    uint32_t start;
    uint32_t end;
};

/* What a conversion loses. A component, a number or one of the three of a Vec3, is lost where its cast is not the same number: it is rounded,
 * wrapped or held at a bound, or is a NaN that becomes an integer. A NaN that is cast to a float is kept, and so are minus zero that becomes
 * 0 and an infinity that stays one. Numbers are compared, not what casting back would give: U8 255 to I8 is lost. Copies lose nothing; a
 * source attribute that is in two mappings counts in each. */

/* nakvisk_convert_by_plan: converts the points of the source range into those of the target range, from either storage into either. In each
 * point of the target range each mapped attribute then holds the cast of its source, or its copy where datatypes are equal; every other
 * byte is as before. docs/SHEETS.md has what a cast gives; a NaN that is cast to a float keeps its sign and the 22 payload bits below the
 * quiet bit, which is set. Puts into *lost how many components were lost in the range, summed over the mappings. Refused with 1, 15 or 22,
 * 16 or 22, 21, 17, 18, 19: with 22 where that side is columns. */
uint32_t nakvisk_convert_by_plan(
    struct nakvisk_plan plan,
    const uint8_t *source, size_t source_length, struct nakvisk_point_range source_range,
    uint8_t *target, size_t target_length, struct nakvisk_point_range target_range,
    uint64_t *lost);

/* What nakvisk_convert_by_mapping hands back. */
struct nakvisk_counted {
    uint32_t refusal;                       /* 0, or the number of the refusal */
    uint64_t lost[NAKVISK_MOST_ATTRIBUTES]; /* for each mapping of the plan, in its order, how many components were lost; then 0 */
};

/* nakvisk_convert_by_mapping: the same conversion, whose counts are handed back, one for each mapping; each is 0 where it is refused.
 * Refused as nakvisk_convert_by_plan is. */
struct nakvisk_counted nakvisk_convert_by_mapping(
    struct nakvisk_plan plan,
    const uint8_t *source, size_t source_length, struct nakvisk_point_range source_range,
    uint8_t *target, size_t target_length, struct nakvisk_point_range target_range);

/* nakvisk_convert_uncounted: the same conversion without a count, which is quickest. Refused as nakvisk_convert_by_plan is. */
uint32_t nakvisk_convert_uncounted(
    struct nakvisk_plan plan,
    const uint8_t *source, size_t source_length, struct nakvisk_point_range source_range,
    uint8_t *target, size_t target_length, struct nakvisk_point_range target_range);

/* nakvisk_convert: nakvisk_convert_by_plan by the plan of three sheets, read anew in each call. Refused as nakvisk_plan_of_sheets is, then
 * with 15 or 22, 16 or 22, 21, 17, 18, 19. */
uint32_t nakvisk_convert(
    const uint8_t *source_sheet, size_t source_sheet_length,
    const uint8_t *target_sheet, size_t target_sheet_length,
    const uint8_t *mapping_sheet, size_t mapping_sheet_length,
    const uint8_t *source, size_t source_length, struct nakvisk_point_range source_range,
    uint8_t *target, size_t target_length, struct nakvisk_point_range target_range,
    uint64_t *lost);

/* ---- listings */

/* nakvisk_list_plan: puts the listing that the program scanplan prints for a plan at the start of the text, and its length into *written. A
 * listing longer than the text leaves the text as it was, and *written is its whole length all the same; none is longer than
 * NAKVISK_LISTING_SIZE. Refused with 1. */
uint32_t nakvisk_list_plan(struct nakvisk_plan plan, uint8_t *text, size_t text_length, uint32_t *written);

/* nakvisk_list: the same for the plan of three sheets. Refused as nakvisk_plan_of_sheets is. */
uint32_t nakvisk_list(
    const uint8_t *source_sheet, size_t source_sheet_length,
    const uint8_t *target_sheet, size_t target_sheet_length,
    const uint8_t *mapping_sheet, size_t mapping_sheet_length,
    uint8_t *text, size_t text_length, uint32_t *written);

/* ---- single points */

/* nakvisk_convert_point: casts the attributes of a source point into those of the same name in a target point, where the datatypes are not
 * equal, as nakvisk_convert_by_plan casts; every other byte of the target point is as before. A lent point may be longer than its layout
 * says. Refused with 1, 14, 20. */
uint32_t nakvisk_convert_point(
    struct nakvisk_layout source_layout, struct nakvisk_layout target_layout,
    const uint8_t *source_point, size_t source_point_length,
    uint8_t *target_point, size_t target_point_length);

/* ---- one attribute of points
 *
 * point_data has the bytes of count interleaved points. place counts the layout's attributes from 0, i the points. */

/* Where the part of a point lies that holds one attribute: within the lent bytes. */
struct nakvisk_part {
    uint32_t refusal; /* 0, or the number of the refusal */
    uint64_t start;   /* the part's first byte, counted from the start of point_data; 0 where it is refused */
    uint64_t size;    /* its bytes; 0 where it is refused */
};

/* nakvisk_read_point: tells where one attribute of point i lies. Refused with 1, 13, 15; with 18 where there is no point i. */
struct nakvisk_part nakvisk_read_point(
    struct nakvisk_layout layout, uint32_t place, uint32_t count,
    const uint8_t *point_data, size_t point_data_length, uint64_t i);

/* nakvisk_write_point: puts a value into that part, from its start on, at most as many bytes as it has; every other byte is as before. Refused
 * as nakvisk_read_point is. */
uint32_t nakvisk_write_point(
    struct nakvisk_layout layout, uint32_t place, uint32_t count,
    uint8_t *point_data, size_t point_data_length, uint64_t i,
    const uint8_t *value, size_t value_length);

/* A view of one attribute: point i's part has size bytes, from i * stride + offset on. Any numbers may stand here: a part that passes the lent
 * bytes is refused with 18. The bytes stay the caller's, and are lent to each call. */
struct nakvisk_view {
    uint64_t offset;
    uint64_t stride;
    uint64_t size;
};

/* What making a view hands back. */
struct nakvisk_view_answer {
    uint32_t refusal;         /* 0, or the number of the refusal */
    struct nakvisk_view view; /* 0 three times where it is refused */
};

/* nakvisk_view_of: gives the view of the attribute at a place. Refused with 1, 13, 15. */
struct nakvisk_view_answer nakvisk_view_of(
    struct nakvisk_layout layout, uint32_t place, uint32_t count,
    const uint8_t *point_data, size_t point_data_length);

/* nakvisk_read_part: tells where point i's part of a view lies. Refused with 18. */
struct nakvisk_part nakvisk_read_part(
    struct nakvisk_view view, const uint8_t *point_data, size_t point_data_length, uint64_t i);

/* nakvisk_write_part: puts a value into point i's part of a view, as nakvisk_write_point does. Refused with 18. */
uint32_t nakvisk_write_part(
    struct nakvisk_view view, uint8_t *point_data, size_t point_data_length, uint64_t i,
    const uint8_t *value, size_t value_length);

#ifdef __cplusplus
}
#endif

#endif
