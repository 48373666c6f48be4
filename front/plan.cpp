#include "plan.h"

#include <algorithm>
#include <map>
#include <set>

#include "records.h"

using std::set;
using std::string;
using std::vector;

bool Reach::has_attribute(const string &uri, const string &name) const {
    if (all_attributes) return !one_space || uri == space;
    return attributes.count(name) > 0;
}

int Part::number_of(int place) const {
    auto found = std::find(constraints.begin(), constraints.end(), place);
    return found == constraints.end() ? -1 : int(found - constraints.begin());
}

// ---- the records of a constraint

static vector<const Path *> paths_of(const Constraint &c) {
    vector<const Path *> out = {&c.selector};
    for (const Path &field : c.fields) out.push_back(&field);
    return out;
}

// With --raw names are the schema's; else a constraint is named by its place, since constraints
// of two namespaces may share a name.
static string name_for(const Names &names, const vector<Constraint> &all, int place) {
    return names.raw() ? all[size_t(place)].name : "c" + std::to_string(place);
}

static Record id_record(const Names &names, const vector<Constraint> &all, int place) {
    const Constraint &c = all[size_t(place)];
    Record out("ID");
    out.byte(unsigned(c.kind));
    out.text(name_for(names, all, place), TEXT_MOST, "its name");
    out.byte(c.refer >= 0);
    if (c.refer >= 0) out.text(name_for(names, all, c.refer), TEXT_MOST, "the name it refers to");
    out.text(names.path_text(c.selector), TEXT_MOST, "its selector, as it is handed in,");
    out.count(c.fields.size(), FIELD_MOST, "fields");
    for (const Path &field : c.fields)
        out.text(names.path_text(field), TEXT_MOST, "a field of it, as it is handed in,");
    out.close();
    return out;
}

static string ns_record(unsigned of, const string &prefix, const string &uri) {
    Record out("NS");
    out.byte(of);
    out.text(prefix, TEXT_MOST, "a prefix");
    out.text(uri, TEXT_MOST, "a namespace");
    out.close();
    return out.over().empty() ? out.bytes() : string();
}

// ---- what the library can't carry

static string over_in(const string &path) {
    if (size_t(std::count(path.begin(), path.end(), '|')) > BAR_MOST)
        return "'" + path + "' has over eight alternatives";
    if (size_t(std::count(path.begin(), path.end(), '/')) > SLASH_MOST)
        return "'" + path + "' has over sixteen '/'";
    return "";
}

static string spaced(const set<string> &words) {
    string out;
    for (const string &word : words) out += (out.empty() ? "" : " ") + word;
    return out;
}

// The path as it is handed in goes through the proved checker too: what passes is in force.
static string path_fault(const Names &names, const Path &path, bool is_field) {
    string text = names.path_text(path);
    set<string> prefixes;
    if (names.raw())
        for (const auto &bound : path.prefixes()) prefixes.insert(bound.first);
    else prefixes = names.prefixes(path);
    string over = over_in(text);
    if (!over.empty()) return over;
    uint32_t answer = check_path(is_field, text, spaced(prefixes));
    return answer == 0 ? "" : "'" + path.text + "': " + path_reason(answer);
}

static bool is_space_wildcard(const Alternative &alternative) {
    return alternative.has_attribute && alternative.attribute.any_local &&
           !alternative.attribute.any_space;
}

// The attribute tests of a constraint, each as a text; of `@p:*` the text begins with a star.
static void add_tests(const Constraint &c, set<string> &tests) {
    for (const Path &field : c.fields)
        for (const Alternative &alternative : field.alternatives) {
            if (!alternative.has_attribute) continue;
            const NameTest &test = alternative.attribute;
            if (is_space_wildcard(alternative)) tests.insert("*" + test.space);
            else tests.insert(test.any_local ? "any" : "one " + test.space + " " + test.local);
        }
}

// A field `@p:*` is handed in as `@*`, with the attributes of one namespace alone: which needs
// that no attribute test of the session, of constraint or key, is another one.
static bool mixes_wildcards(const vector<Constraint> &all, int place) {
    const Constraint &c = all[size_t(place)];
    set<string> tests;
    add_tests(c, tests);
    if (c.refer >= 0) add_tests(all[size_t(c.refer)], tests);
    return tests.size() > 1 && (*tests.begin())[0] == '*';
}

static string fault_of(const Names &names, const vector<Constraint> &all, int place) {
    const Constraint &c = all[size_t(place)];
    Record id = id_record(names, all, place);
    if (!id.over().empty()) return id.over();
    if (!names.raw() && mixes_wildcards(all, place))
        return "a field '@p:*' of it, or of its key, stands beside another attribute";
    size_t number = 0;
    for (const Path *path : paths_of(c)) {
        for (const auto &bound : path->prefixes())
            if (names.raw() && ns_record(1, bound.first, bound.second).empty())
                return "a prefix or its namespace has over 255 bytes";
        string fault = path_fault(names, *path, number++ > 0);
        if (!fault.empty()) return fault;
    }
    return "";
}

// ---- what it reaches

static void reach_field(Reach &reach, const Names &names, const Path &selector,
                        const Alternative &field) {
    for (const NameTest &step : field.steps) reach.steps.add(step);
    reach.descends = reach.descends || field.descends;
    if (field.has_attribute) {
        const NameTest &test = field.attribute;
        reach.all_attributes = reach.all_attributes || test.any_local;
        if (is_space_wildcard(field) && !names.raw()) {
            reach.one_space = true;
            reach.space = test.space;
        }
        reach.attributes.insert(names.attribute_name(test.space, test.local));
    } else if (!field.steps.empty()) {
        reach.values.add(field.steps.back());
    } else if (field.descends) {
        reach.values.add_all();
    } else { // `.`: the value of the selected element
        for (const Alternative &selected : selector.alternatives)
            if (selected.steps.empty()) reach.values.add_all();
            else reach.values.add(selected.steps.back());
    }
}

static void reach_of(Reach &reach, const Names &names, const Constraint &c) {
    for (const Alternative &selected : c.selector.alternatives) {
        for (const NameTest &step : selected.steps) reach.steps.add(step);
        reach.descends = reach.descends || selected.descends;
    }
    for (const Path &field : c.fields)
        for (const Alternative &alternative : field.alternatives)
            reach_field(reach, names, c.selector, alternative);
}

// ---- parts

// How full a session would be with these constraints.
static bool fits(const Names &names, const vector<Constraint> &all, const vector<int> &places) {
    set<string> prefixes;
    std::map<int, size_t> on_element;
    size_t own_prefixes = 0;
    bool space_wildcard = false;
    for (int place : places) {
        const Constraint &c = all[size_t(place)];
        if (++on_element[c.element] > LISTED_MOST) return false;
        for (const Path *path : paths_of(c)) {
            own_prefixes += path->prefixes().size();
            for (const string &prefix : names.prefixes(*path)) prefixes.insert(prefix);
            for (const Alternative &alternative : path->alternatives)
                space_wildcard = space_wildcard || is_space_wildcard(alternative);
        }
    }
    size_t bound = names.raw() ? own_prefixes : prefixes.size();
    if (space_wildcard && !names.raw() && places.size() > 1) return false;
    return places.size() <= DEFINED_MOST && bound <= BOUND_MOST;
}

// A constraint, and for a keyref its key, into the first part that has room.
static void place_in(vector<Part> &parts, const Names &names, const vector<Constraint> &all,
                     const vector<int> &needed, set<int> &told, bool alone) {
    size_t at = alone ? parts.size() : 0;
    for (; at < parts.size(); ++at) {
        vector<int> with = parts[at].constraints;
        for (int place : needed)
            if (parts[at].number_of(place) < 0) with.push_back(place);
        if (fits(names, all, with)) break;
    }
    if (at == parts.size()) parts.emplace_back(&names);
    for (int place : needed) {
        if (parts[at].number_of(place) >= 0) continue;
        parts[at].constraints.push_back(place);
        parts[at].told.push_back(told.insert(place).second);
    }
}

static void define(Part &part, const Names &names, const vector<Constraint> &all) {
    set<string> prefixes;
    for (int place : part.constraints) {
        const Constraint &c = all[size_t(place)];
        reach_of(part.reach, names, c);
        part.definitions.push_back(id_record(names, all, place).bytes());
        unsigned of = 1;
        for (const Path *path : paths_of(c)) {
            if (names.raw())
                for (const auto &bound : path->prefixes())
                    part.definitions.push_back(ns_record(of, bound.first, bound.second));
            ++of;
            for (const string &prefix : names.prefixes(*path)) prefixes.insert(prefix);
        }
    }
    if (names.raw()) return;
    for (const string &prefix : prefixes)
        part.definitions.push_back(ns_record(0, prefix, prefix.substr(1)));
}

void Plan::make(const vector<Constraint> &constraints, bool alone) {
    for (const Constraint &c : constraints)
        for (const Path *path : paths_of(c)) names.learn(*path);
    set<int> told, faulty;
    for (size_t i = 0; i < constraints.size(); ++i) {
        string fault = fault_of(names, constraints, int(i));
        if (fault.empty()) continue;
        faulty.insert(int(i));
        unchecked.push_back(string(constraints[i].kind_word()) + " '" + constraints[i].name +
                            "' is not checked: " + fault);
    }
    for (size_t i = 0; i < constraints.size(); ++i) {
        const Constraint &c = constraints[i];
        if (faulty.count(int(i)) || told.count(int(i))) continue;
        vector<int> needed = {int(i)};
        if (c.refer >= 0) needed.insert(needed.begin(), c.refer);
        if (faulty.count(c.refer))
            unchecked.push_back("keyref '" + c.name + "' is not checked, since its key is not");
        else place_in(parts, names, constraints, needed, told, alone);
    }
    for (Part &part : parts) define(part, names, constraints);
}
