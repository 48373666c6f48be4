#include "names.h"

#include "texts.h"

using std::set;
using std::string;

// Longer names are handed in by their length and a digest, so that a path of several is in limits.
static const size_t NAME_MOST = 60;

static string shortened(const string &name) {
    if (name.size() <= NAME_MOST) return name;
    return "long." + std::to_string(name.size()) + "." + digest(name).substr(0, 40);
}

// `n` and digits and `.` at the front, as of an attribute with a namespace.
static bool looks_numbered(const string &name) {
    size_t i = 1;
    while (i < name.size() && name[i] >= '0' && name[i] <= '9') ++i;
    return name[0] == 'n' && i > 1 && i < name.size() && name[i] == '.';
}

void Names::learn(const Path &path) {
    auto note = [&](const NameTest &test) {
        if (!test.any_space && !test.space.empty())
            numbers_.emplace(test.space, int(numbers_.size()) + 1);
    };
    for (const Alternative &alternative : path.alternatives) {
        for (const NameTest &step : alternative.steps) note(step);
        if (alternative.has_attribute) note(alternative.attribute);
    }
}

string Names::space_text(const string &uri) const {
    if (raw_) return uri;
    if (uri.empty()) return "0";
    auto known = numbers_.find(uri);
    return known == numbers_.end() ? "x" : std::to_string(known->second);
}

string Names::element_name(const string &local) const { return raw_ ? local : shortened(local); }

string Names::attribute_name(const string &uri, const string &local) const {
    if (raw_) return local;
    if (uri.empty() && !looks_numbered(local)) return shortened(local);
    return "n" + space_text(uri) + "." + shortened(local);
}

// ---- paths

string Names::step_text(const NameTest &test) const {
    if (test.any_space && test.any_local) return "*";
    string prefix = "n" + space_text(test.space) + ":";
    return prefix + (test.any_local ? "*" : shortened(test.local));
}

string Names::alternative_text(const Alternative &alternative) const {
    string out;
    for (const NameTest &step : alternative.steps)
        out += (out.empty() ? "" : "/") + step_text(step);
    if (alternative.has_attribute) {
        const NameTest &test = alternative.attribute;
        string name = test.any_local ? "*" : attribute_name(test.space, test.local);
        out += (out.empty() ? "@" : "/@") + name;
    }
    if (out.empty()) out = ".";
    return alternative.descends ? ".//" + out : out;
}

string Names::path_text(const Path &path) const {
    if (raw_) return path.text;
    string out;
    for (const Alternative &alternative : path.alternatives)
        out += (out.empty() ? "" : "|") + alternative_text(alternative);
    return out;
}

set<string> Names::prefixes(const Path &path) const {
    set<string> out;
    for (const Alternative &alternative : path.alternatives)
        for (const NameTest &step : alternative.steps)
            if (!step.any_space) out.insert("n" + space_text(step.space));
    return out;
}

// ---- sets

// With --raw a name goes by its local part: it takes too much at worst, and only what is handed
// in depends on it.
void NameSet::add(const NameTest &test) {
    if (test.any_local && (test.any_space || names_->raw())) all_ = true;
    else if (test.any_local) spaces_.insert(names_->space_text(test.space));
    else if (names_->raw()) named_.insert(test.local);
    else named_.insert(names_->space_text(test.space) + ":" + names_->element_name(test.local));
}

bool NameSet::has(const string &space_text, const string &name) const {
    if (all_ || (!spaces_.empty() && spaces_.count(space_text))) return true;
    return named_.count(names_->raw() ? name : space_text + ":" + name) > 0;
}
