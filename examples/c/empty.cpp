// What C++ passes where there is nothing: the data of an empty vector, which may be null, that of
// an empty string, and nullptr for a fault. And how to ask for a size first, then for the bytes.
#include <cstdio>
#include <string>
#include <vector>

#include "ssz.h"

namespace {

using Bytes = std::vector<std::uint8_t>;

unsigned asked, wrong;

void at(int line, bool test) {
    ++asked;
    if (test) return;
    ++wrong;
    std::printf("line %d: not so\n", line);
}

#define SO(test) at(__LINE__, test)

const std::uint8_t *of(const std::string &text) {
    return reinterpret_cast<const std::uint8_t *>(text.data());
}

// The bytes of a call that takes room and a length: asked for their number, then for them.
template <typename Call> Bytes filled(Call call) {
    Bytes bytes;
    std::uint64_t len = 0;
    std::uint32_t status = call(bytes.data(), bytes.size(), &len);
    if (status == SSZ_NO_ROOM) {
        bytes.resize(static_cast<std::size_t>(len));
        status = call(bytes.data(), bytes.size(), &len);
    }
    SO(status == SSZ_OK && len == bytes.size());
    return bytes;
}

const std::string types = "{\"ssz\":1,\"types\":[[\"L\",{\"list\":[\"uint64\",1024]}],"
                          "[\"P\",{\"container\":[[\"a\",\"L\"],[\"b\",\"uint8\"]]}]]}";

std::uint64_t number_of(ssz_schema *schema, const std::string &name) {
    std::uint64_t type = 0;
    SO(ssz_type(schema, of(name), name.size(), &type, nullptr) == SSZ_OK);
    return type;
}

// An empty list is a value, and its bytes are none.
void empty_list(ssz_schema *schema, std::uint64_t list) {
    const Bytes none{};
    const std::string no_text, whole = "/";
    std::uint8_t root[32] = {}, of_one[32] = {};
    const std::uint8_t zero = 0;
    const ssz_index top = {1, 0};
    SO(ssz_check(schema, list, none.data(), none.size(), nullptr) == SSZ_OK);
    SO(ssz_root(schema, list, none.data(), none.size(), root, nullptr) == SSZ_OK);
    SO(ssz_root(schema, list, &zero, 0, of_one, nullptr) == SSZ_OK);
    SO(Bytes(root, root + 32) == Bytes(of_one, of_one + 32));
    SO(ssz_verify_branch(root, root, &top, none.data(), none.size()) == SSZ_OK);
    SO(ssz_verify(root, of(no_text), no_text.size()) == SSZ_BAD_PROOF);
    SO(filled([&](std::uint8_t *room, std::size_t most, std::uint64_t *len) {
           return ssz_part(schema, list, none.data(), none.size(), of(whole), 1, room, most, len,
                           nullptr);
       }).empty());
}

// Sizes first: a text, a default, and the bytes of a version.
void sizes(ssz_schema *schema, std::uint64_t pair) {
    ssz_session session = SSZ_SESSION_NONE;
    const std::string name = "V", type = "P", path = "/a", whole = "/";
    const Bytes none{};
    const Bytes made = filled([&](std::uint8_t *room, std::size_t most, std::uint64_t *len) {
        return ssz_default(schema, pair, room, most, len, nullptr);
    });
    SO(made == Bytes({5, 0, 0, 0, 0}));
    SO(ssz_session_start_on(&session, schema, nullptr) == SSZ_OK);
    SO(ssz_session_load(&session, of(name), 1, of(type), 1, made.data(), made.size(), nullptr) ==
       SSZ_OK);
    SO(ssz_session_set(&session, of(name), 1, of(path), 2, none.data(), none.size(), nullptr) ==
       SSZ_OK);
    SO(filled([&](std::uint8_t *room, std::size_t most, std::uint64_t *len) {
           return ssz_session_bytes(&session, of(name), 1, of(whole), 1, room, most, len, nullptr);
       }) == made);
    SO(ssz_session_end(&session) == SSZ_OK);
}

} // namespace

int main() {
    ssz_schema schema = SSZ_SCHEMA_NONE;
    const std::string none;
    SO(ssz_schema_read(&schema, of(none), none.size(), nullptr) == SSZ_BAD_SCHEMA);
    SO(ssz_schema_read(&schema, of(types), types.size(), nullptr) == SSZ_OK);
    empty_list(&schema, number_of(&schema, "L"));
    sizes(&schema, number_of(&schema, "P"));
    // by a pointer whose type is the call's own, as for a library that is loaded
    decltype(&ssz_check) check = &ssz_check;
    SO(check(&schema, 0, Bytes{}.data(), 0, nullptr) == SSZ_OK);
    SO(ssz_schema_share(&schema, &schema, nullptr) == SSZ_REFUSED);
    SO(ssz_schema_free(&schema) == SSZ_OK);
    std::printf("%u asked, %u wrong\n", asked, wrong);
    return wrong != 0;
}
