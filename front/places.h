// Where the elements of a report stand: line, column and path.
#ifndef ZOGRAXT_PLACES_H
#define ZOGRAXT_PLACES_H

#include <cstdint>
#include <string>
#include <unordered_map>
#include <vector>

class Places {
  public:
    static constexpr uint32_t NONE = UINT32_MAX;

    // A name's number, for `open`.
    uint32_t number_of(const std::string &name);

    // An element starts, or the innermost open one ends. The place is the end of its start tag.
    uint32_t open(uint32_t name, uint64_t line, uint64_t column);
    void close() { open_.pop_back(); }

    size_t depth() const { return open_.size(); }
    uint64_t line(uint32_t element) const;
    uint64_t column(uint32_t element) const;

    // `/book/voucher[60]`: a number stands where the parent has several of that name.
    std::string path(uint32_t element) const;

  private:
    struct Element {
        uint32_t parent, name, nth, line, column;
        bool several;
    };
    // Of a name, the elements of one parent that bear it.
    struct Namesakes {
        uint32_t parent, depth, count, first;
    };
    struct Name {
        std::string text;
        std::vector<Namesakes> met; // of the innermost parent last; parents that ended go later
    };
    bool is_open(const Namesakes &met) const;

    std::vector<Element> elements_;
    std::vector<uint32_t> open_;
    std::unordered_map<std::string, uint32_t> numbers_;
    std::vector<Name> names_;
};

#endif
