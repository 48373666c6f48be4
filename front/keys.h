// Keys: the value of an element or attribute as a text, so that two texts are equal where the
// values are.
//
// A key is a letter for the primitive type and one spelling of the value: `1`, `01` and `1.0` are
// all `n1` as decimals, and the string `1` is `s1`. docs/FRONT.md has the rule of each type.
#ifndef ZOGRAXT_KEYS_H
#define ZOGRAXT_KEYS_H

#include <string>
#include <unordered_map>
#include <vector>

#include <xercesc/framework/psvi/PSVIItem.hpp>
#include <xercesc/framework/psvi/XSSimpleTypeDefinition.hpp>
#include <xercesc/framework/psvi/XSTypeDefinition.hpp>

// The prefixes that are bound where the reading is, for QNames.
class Bindings {
  public:
    void bind(const std::string &prefix, const std::string &uri) { bound_[prefix].push_back(uri); }
    void release(const std::string &prefix) { bound_[prefix].pop_back(); }
    void clear() { bound_.clear(); }
    std::string uri_of(const std::string &prefix) const;

  private:
    std::unordered_map<std::string, std::vector<std::string>> bound_; // the latest last
};

// The simple type of the values of a type: its own, or that of its content; null where it has none.
xercesc::XSSimpleTypeDefinition *simple_type(xercesc::XSTypeDefinition *type);

// The key of an element or attribute, of at most 126 bytes: longer ones go by length and digest.
std::string key_of(xercesc::PSVIItem *item, xercesc::XSSimpleTypeDefinition *type,
                   const Bindings &bindings);

// A key as it is shown in a line: the value without its letter.
std::string shown_key(const std::string &key);

#endif
