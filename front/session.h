// A session of the proved library: its numbers, stores and areas, and what it has found.
#ifndef ZOGRAXT_SESSION_H
#define ZOGRAXT_SESSION_H

#include <cstdint>
#include <string>
#include <string_view>
#include <vector>

// Memory of a fixed length that costs nothing until it is written. A store may not grow within a
// run, so it is as long as a run can need.
class Lent {
  public:
    explicit Lent(size_t length); // shorter where the system does not give so much
    ~Lent();
    Lent(const Lent &) = delete;
    uint8_t *bytes() const { return bytes_; }
    size_t length() const { return length_; }

  private:
    uint8_t *bytes_;
    size_t length_;
};

// A line of the library: RP.
struct Report {
    unsigned kind, constraint, field;
    uint32_t scope, tuple;
    uint64_t event;
};

// Values that were kept, or that a reference has: TU.
struct Tuple {
    unsigned constraint;
    uint32_t scope;
    std::vector<std::string> keys;
};

class Session {
  public:
    Session();

    // Takes a whole record. Records go to the library in pieces that grow, since each call looks
    // at all that is stored before it begins.
    void hand_in(const std::string &record);

    // Hands the library what is still waiting.
    void flush();

    uint64_t events() const { return events_; }   // records so far, those that wait too
    uint32_t refused() const { return refused_; } // 0, or the library's number
    uint64_t refused_event() const { return numbers_[0] + 1; }

    std::vector<Report> reports() const;
    std::vector<uint64_t> tuples_by_constraint() const; // how many, by number
    std::vector<Tuple> tuples(const std::vector<uint32_t> &numbers) const;

    // The events at which these tuples were stored; 0 for a number that no tuple has.
    std::vector<uint64_t> origins(const std::vector<uint32_t> &numbers) const;

    const std::string &records() const { return records_; }

  private:
    std::vector<std::string_view> stored() const; // the TU records

    uint64_t numbers_[5] = {0, 0, 0, 0, 0}; // events, running, used of the three stores
    Lent definitions_, tuples_, reports_, paths_, scopes_, names_, cells_;
    std::string records_; // all of them, one behind the other
    size_t taken_ = 0;    // so many bytes of them are with the library
    uint64_t events_ = 0;
    uint32_t refused_ = 0;
};

#endif
