// names.cpp: C++ takes the header's names as they are: a type's name needs no `struct` before it, and no type shares its name with a
// function. It makes a plan once and converts two buffers by it.
#include <array>
#include <cstring>
#include <stdexcept>
#include <string>
#include <type_traits>

#include "nakvisk.h"

static_assert(std::is_trivially_copyable<nakvisk_plan>::value, "a plan is passed by value");
static_assert(sizeof(nakvisk_datatype) == 24, "a datatype lies as the archive has it");
static_assert(sizeof(nakvisk_attribute) == 56 && sizeof(nakvisk_member) == 64, "members lie one after the other");
static_assert(sizeof(nakvisk_point_range) == 16, "a range is four numbers of 32 bits");
static_assert(sizeof(nakvisk_counted) == 264, "a number of 64 bits for each mapping");
static_assert(sizeof(nakvisk_layout) == 2056 && sizeof(nakvisk_plan) == 4184, "layouts and plans lie as the archive has them");

namespace {

template <typename Answer>
Answer accepted(Answer answer) {
    if (answer.refusal != 0) throw std::runtime_error("refused " + std::to_string(answer.refusal));
    return answer;
}

nakvisk_attribute attribute(const char *name, nakvisk_code code) {
    nakvisk_attribute made = {};
    std::memcpy(made.name, name, std::strlen(name));
    made.name_len = static_cast<uint8_t>(std::strlen(name));
    made.datatype.code = static_cast<uint8_t>(code);
    return made;
}

}  // namespace

int main() {
    nakvisk_layout empty = NAKVISK_EMPTY_LAYOUT;
    nakvisk_layout source = accepted(nakvisk_add_attribute(empty, attribute("Z", NAKVISK_I16))).layout;
    nakvisk_member given[] = {{attribute("Z", NAKVISK_F32), 4}};
    nakvisk_layout target = accepted(nakvisk_layout_of_members(given, 1, 4)).layout;
    nakvisk_plan plan = accepted(nakvisk_for_layouts(source, target)).plan;
    nakvisk_found found = accepted(nakvisk_offset_of(target, attribute("Z", NAKVISK_F32)));
    const nakvisk_point_range one = {NAKVISK_INTERLEAVED, 1, 0, 1};
    for (int16_t value : {-7, 300}) {
        std::array<uint8_t, 2> from;
        std::array<uint8_t, 8> to = {};
        std::memcpy(from.data(), &value, from.size());
        uint64_t lost = 7;
        if (nakvisk_convert_by_plan(plan, from.data(), from.size(), one, to.data(), to.size(), one, &lost) != 0 || lost != 0) return 1;
        float cast;
        std::memcpy(&cast, to.data() + found.at, sizeof cast);
        if (cast != static_cast<float>(value)) return 1;
    }
    nakvisk_refusal number = static_cast<nakvisk_refusal>(nakvisk_set_custom_mapping(plan, 1, 0).refusal);
    return number == NAKVISK_NO_PLACE ? 0 : 1;
}
