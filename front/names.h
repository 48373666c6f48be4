// Names in Part 1's meaning, over a library that has another.
//
// To the library a name without a prefix is in any namespace, and attributes go by local names
// alone. So namespaces get numbers here, 0 for none: a step is written with the prefix of its
// namespace's number (`n0:voucher`), an element with that number as its namespace, and an
// attribute of namespace 2 is handed in as `n2.id`. With --raw names stay as they are.
#ifndef ZOGRAXT_NAMES_H
#define ZOGRAXT_NAMES_H

#include <set>
#include <string>
#include <unordered_map>
#include <unordered_set>

#include "paths.h"

class Names {
  public:
    explicit Names(bool raw) : raw_(raw) {}
    bool raw() const { return raw_; }

    // Gives a number to each namespace that the path names.
    void learn(const Path &path);

    // A path as the library is to read it, and the prefixes that it then needs: `n0`, `n2`.
    std::string path_text(const Path &path) const;
    std::set<std::string> prefixes(const Path &path) const;

    // Of an element or attribute of a report, as it is handed in.
    std::string space_text(const std::string &uri) const; // of a namespace no path names: `x`
    std::string element_name(const std::string &local) const;
    std::string attribute_name(const std::string &uri, const std::string &local) const;

  private:
    std::string step_text(const NameTest &test) const;
    std::string alternative_text(const Alternative &alternative) const;

    bool raw_;
    std::unordered_map<std::string, int> numbers_;
};

// Some name tests, and whether an element is among what they take.
class NameSet {
  public:
    explicit NameSet(const Names *names) : names_(names) {}
    void add(const NameTest &test);
    void add_all() { all_ = true; }
    bool has(const std::string &space_text, const std::string &name) const;

  private:
    const Names *names_;
    bool all_ = false;
    std::unordered_set<std::string> spaces_, named_;
};

#endif
