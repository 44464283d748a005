//! The structs and functions of include/nakvisk.h, as the archive has them.

#[derive(Clone, Copy)]
#[repr(C)]
pub struct Datatype {
    pub code: u8,
    pub n: u16,
    pub alignment: u8,
    pub name_high: u64,
    pub name_low: u64,
}

#[repr(C)]
pub struct DatatypeAnswer {
    pub refusal: u32,
    pub size: u32,
    pub alignment: u32,
}

#[derive(Clone, Copy)]
#[repr(C)]
pub struct Attribute {
    pub name: [u8; 31],
    pub name_len: u8,
    pub datatype: Datatype,
}

#[derive(Clone, Copy)]
#[repr(C)]
pub struct Member {
    pub definition: Attribute,
    pub offset: u16,
}

#[derive(Clone, Copy)]
#[repr(C)]
pub struct Layout {
    pub attributes: [Member; 32],
    pub count: u8,
    pub size: u16,
    pub alignment: u16,
}

#[repr(C)]
pub struct LayoutAnswer {
    pub refusal: u32,
    pub layout: Layout,
}

#[repr(C)]
pub struct Found {
    pub refusal: u32,
    pub found: u32,
    pub at: u64,
}

#[repr(C)]
pub struct Compared {
    pub refusal: u32,
    pub same: u32,
}

#[derive(Clone, Copy)]
#[repr(C)]
pub struct Mapping {
    pub source: u8,
    pub target: u8,
}

#[derive(Clone, Copy)]
#[repr(C)]
pub struct Plan {
    pub source: Layout,
    pub target: Layout,
    pub mappings: [Mapping; 32],
    pub count: u8,
}

#[repr(C)]
pub struct PlanAnswer {
    pub refusal: u32,
    pub plan: Plan,
}

#[derive(Clone, Copy)]
#[repr(C)]
pub struct PointRange {
    pub storage: u32,
    pub count: u32,
    pub start: u32,
    pub end: u32,
}

#[repr(C)]
pub struct Counted {
    pub refusal: u32,
    pub lost: [u64; 32],
}

#[repr(C)]
pub struct Part {
    pub refusal: u32,
    pub start: u64,
    pub size: u64,
}

#[derive(Clone, Copy)]
#[repr(C)]
pub struct View {
    pub offset: u64,
    pub stride: u64,
    pub size: u64,
}

#[repr(C)]
pub struct ViewAnswer {
    pub refusal: u32,
    pub view: View,
}

extern "C" {
    pub fn nakvisk_version() -> u32;
    pub fn nakvisk_convert(
        source_sheet: *const u8,
        source_sheet_length: usize,
        target_sheet: *const u8,
        target_sheet_length: usize,
        mapping_sheet: *const u8,
        mapping_sheet_length: usize,
        source: *const u8,
        source_length: usize,
        source_range: PointRange,
        target: *mut u8,
        target_length: usize,
        target_range: PointRange,
        lost: *mut u64,
    ) -> u32;
    pub fn nakvisk_point_size(layout_sheet: *const u8, layout_sheet_length: usize, size: *mut u32) -> u32;
    pub fn nakvisk_list(
        source_sheet: *const u8,
        source_sheet_length: usize,
        target_sheet: *const u8,
        target_sheet_length: usize,
        mapping_sheet: *const u8,
        mapping_sheet_length: usize,
        text: *mut u8,
        text_length: usize,
        written: *mut u32,
    ) -> u32;
    pub fn nakvisk_datatype_of(datatype: Datatype) -> DatatypeAnswer;
    pub fn nakvisk_layout_of_sheet(layout_sheet: *const u8, layout_sheet_length: usize) -> LayoutAnswer;
    pub fn nakvisk_layout_of_members(members: *const Member, members_length: usize, alignment: u16) -> LayoutAnswer;
    pub fn nakvisk_add_attribute(layout: Layout, attribute: Attribute) -> LayoutAnswer;
    pub fn nakvisk_add_attribute_packed(layout: Layout, attribute: Attribute, p: u8) -> LayoutAnswer;
    pub fn nakvisk_get_attribute_by_name(layout: Layout, name: *const u8, name_length: usize) -> Found;
    pub fn nakvisk_index_of(layout: Layout, attribute: Attribute) -> Found;
    pub fn nakvisk_offset_of(layout: Layout, attribute: Attribute) -> Found;
    pub fn nakvisk_compare_without_offsets(layout: Layout, other: Layout) -> Compared;
    pub fn nakvisk_plan_of_sheets(
        source_sheet: *const u8,
        source_sheet_length: usize,
        target_sheet: *const u8,
        target_sheet_length: usize,
        mapping_sheet: *const u8,
        mapping_sheet_length: usize,
    ) -> PlanAnswer;
    pub fn nakvisk_plan_of_input(input: *const u8, input_length: usize) -> PlanAnswer;
    pub fn nakvisk_plan_of_mapping_sheet(
        source_layout: Layout,
        target_layout: Layout,
        mapping_sheet: *const u8,
        mapping_sheet_length: usize,
    ) -> PlanAnswer;
    pub fn nakvisk_for_layouts(source_layout: Layout, target_layout: Layout) -> PlanAnswer;
    pub fn nakvisk_for_layouts_with_default(source_layout: Layout, target_layout: Layout) -> PlanAnswer;
    pub fn nakvisk_set_custom_mapping(plan: Plan, source_place: u32, target_place: u32) -> PlanAnswer;
    pub fn nakvisk_convert_by_plan(
        plan: Plan,
        source: *const u8,
        source_length: usize,
        source_range: PointRange,
        target: *mut u8,
        target_length: usize,
        target_range: PointRange,
        lost: *mut u64,
    ) -> u32;
    pub fn nakvisk_convert_by_mapping(
        plan: Plan,
        source: *const u8,
        source_length: usize,
        source_range: PointRange,
        target: *mut u8,
        target_length: usize,
        target_range: PointRange,
    ) -> Counted;
    pub fn nakvisk_convert_uncounted(
        plan: Plan,
        source: *const u8,
        source_length: usize,
        source_range: PointRange,
        target: *mut u8,
        target_length: usize,
        target_range: PointRange,
    ) -> u32;
    pub fn nakvisk_list_plan(plan: Plan, text: *mut u8, text_length: usize, written: *mut u32) -> u32;
    pub fn nakvisk_convert_point(
        source_layout: Layout,
        target_layout: Layout,
        source_point: *const u8,
        source_point_length: usize,
        target_point: *mut u8,
        target_point_length: usize,
    ) -> u32;
    pub fn nakvisk_read_point(
        layout: Layout,
        place: u32,
        count: u32,
        point_data: *const u8,
        point_data_length: usize,
        i: u64,
    ) -> Part;
    pub fn nakvisk_write_point(
        layout: Layout,
        place: u32,
        count: u32,
        point_data: *mut u8,
        point_data_length: usize,
        i: u64,
        value: *const u8,
        value_length: usize,
    ) -> u32;
    pub fn nakvisk_view_of(layout: Layout, place: u32, count: u32, point_data: *const u8, point_data_length: usize) -> ViewAnswer;
    pub fn nakvisk_read_part(view: View, point_data: *const u8, point_data_length: usize, i: u64) -> Part;
    pub fn nakvisk_write_part(
        view: View,
        point_data: *mut u8,
        point_data_length: usize,
        i: u64,
        value: *const u8,
        value_length: usize,
    ) -> u32;
}
