#include "paths.h"

#include "identity.h"

using std::string;

std::map<string, string> Path::prefixes() const {
    std::map<string, string> used;
    auto note = [&](const NameTest &test) {
        if (!test.prefix.empty()) used[test.prefix] = test.space;
    };
    for (const Alternative &alternative : alternatives) {
        for (const NameTest &step : alternative.steps) note(step);
        if (alternative.has_attribute) note(alternative.attribute);
    }
    return used;
}

static const uint8_t *bytes(const string &text) {
    return reinterpret_cast<const uint8_t *>(text.data());
}

uint32_t check_path(bool is_field, const string &path, const string &prefixes) {
    return identity_check_path(is_field ? IDENTITY_FIELD : IDENTITY_SELECTOR, bytes(path),
                               path.size(), bytes(prefixes), prefixes.size());
}

static const char *const REASONS[] = {
    "it is empty",
    "a ':' stands where no name is before it",
    "a name in it is no NCName",
    "a ':' has no name behind it",
    "it has a character that no path has",
    "an alternative beside '|' is empty",
    "'.//' stands alone: a step must follow",
    "a selector selects elements, not attributes",
    "what stands before '::' is no plain name",
    "only the axes child and attribute are allowed",
    "a prefix in it is not declared",
    "where a step is due something else stands",
    "it ends in '/'",
    "two steps need one '/' between them, two alternatives one '|'",
};

string path_reason(uint32_t answer) {
    if (answer > 100 && answer <= 114)
        return "X" + std::to_string(answer - 100) + ": " + REASONS[answer - 101];
    if (answer == IDENTITY_REFUSED_LIMIT) return "over 255 bytes, the longest path that is read";
    if (answer == IDENTITY_REFUSED_UTF8) return "no UTF-8";
    return "refused with " + std::to_string(answer);
}
