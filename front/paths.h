// The paths of a constraint as Xerces-C has resolved them, and what the proved checker says of a
// path's text.
#ifndef ZOGRAXT_PATHS_H
#define ZOGRAXT_PATHS_H

#include <cstdint>
#include <map>
#include <string>
#include <vector>

// A name test: of any namespace where any_space, of any local name where any_local.
struct NameTest {
    bool any_space = false, any_local = false;
    std::string space, local;
    std::string prefix; // as the path has it
};

// One alternative of a path: steps down, after `.//` anywhere below, and perhaps an attribute.
struct Alternative {
    bool descends = false;
    std::vector<NameTest> steps;
    bool has_attribute = false;
    NameTest attribute;
};

struct Path {
    std::string text; // as it stands in the schema
    std::vector<Alternative> alternatives;

    // The prefixes that it uses, with their namespaces.
    std::map<std::string, std::string> prefixes() const;
};

// What identity_check_path answers. `prefixes` has single spaces between.
uint32_t check_path(bool is_field, const std::string &path, const std::string &prefixes);

// An answer of the checker other than 0, in words, such as `X14: two steps need one '/' between`.
std::string path_reason(uint32_t answer);

#endif
