#include "places.h"

using std::string;
using std::vector;

uint32_t Places::number_of(const string &name) {
    auto known = numbers_.emplace(name, uint32_t(names_.size()));
    if (known.second) names_.push_back({name, {}});
    return known.first->second;
}

// Whether their parent is; the root has none.
bool Places::is_open(const Namesakes &met) const {
    return met.depth == 0 || (met.depth <= open_.size() && open_[met.depth - 1] == met.parent);
}

uint32_t Places::open(uint32_t name, uint64_t line, uint64_t column) {
    uint32_t here = uint32_t(elements_.size()), depth = uint32_t(open_.size());
    uint32_t parent = open_.empty() ? NONE : open_.back();
    vector<Namesakes> &met = names_[name].met;
    // Those of parents that have ended since are of no more use.
    while (!met.empty() && !is_open(met.back())) met.pop_back();
    if (met.empty() || met.back().parent != parent) met.push_back({parent, depth, 0, here});
    uint32_t nth = ++met.back().count;
    if (nth == 2) elements_[met.back().first].several = true;
    elements_.push_back({parent, name, nth, uint32_t(line), uint32_t(column), nth > 1});
    open_.push_back(here);
    return here;
}

uint64_t Places::line(uint32_t element) const {
    return element < elements_.size() ? elements_[element].line : 0;
}

uint64_t Places::column(uint32_t element) const {
    return element < elements_.size() ? elements_[element].column : 0;
}

string Places::path(uint32_t element) const {
    vector<uint32_t> up;
    for (; element < elements_.size(); element = elements_[element].parent) up.push_back(element);
    string out;
    for (size_t i = up.size(); i-- > 0;) {
        const Element &e = elements_[up[i]];
        out += "/" + names_[e.name].text;
        if (e.several) out += "[" + std::to_string(e.nth) + "]";
    }
    return out;
}
