// The plan of a check: which constraints go to which session, and the records that define them.
//
// A session takes 32 constraints, 8 of them on one element. Where a schema has more, several
// sessions go over one reading of the report. A keyref needs its key beside it; a key that is
// told by another session stands there as a copy, whose reports are not told.
#ifndef ZOGRAXT_PLAN_H
#define ZOGRAXT_PLAN_H

#include <string>
#include <unordered_set>
#include <vector>

#include "names.h"
#include "schema.h"

// What of a report a session can need. Of all else nothing is handed in, unless asked by --all.
struct Reach {
    explicit Reach(const Names *names) : steps(names), values(names) {}
    NameSet steps;  // elements that a step of a path takes
    NameSet values; // elements whose value a field can need
    bool descends = false; // `.//`: any element can be on the way

    bool all_attributes = false;
    bool one_space = false; // all attributes are those of this namespace alone
    std::string space;
    std::unordered_set<std::string> attributes; // as they are handed in

    bool has_attribute(const std::string &uri, const std::string &name) const;
};

struct Part {
    explicit Part(const Names *names) : reach(names) {}
    std::vector<int> constraints; // by number in the session: the place in the schema
    std::vector<bool> told;       // not: a copy for a keyref
    std::vector<std::string> definitions; // ID and NS records
    Reach reach;

    int number_of(int place) const; // -1: not in this session
};

struct Plan {
    explicit Plan(bool raw) : names(raw) {}
    Plan(const Plan &) = delete;
    Names names;
    std::vector<Part> parts;
    std::vector<std::string> unchecked; // constraints that the library can't carry, and why

    // Alone: with a session for each constraint, which meets fewer limits and takes longer.
    void make(const std::vector<Constraint> &constraints, bool alone);
};

#endif
