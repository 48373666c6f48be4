// A session on its way through a report: what it is handed, and which elements its events are of.
#ifndef ZOGRAXT_TRACK_H
#define ZOGRAXT_TRACK_H

#include <string>
#include <vector>

#include "places.h"
#include "plan.h"
#include "records.h"
#include "session.h"

// A name of elements, as it is handed in, and what each session makes of it.
struct KnownName {
    std::string space_text, handed_in;
    std::string start;      // the record of a start without constraints and attributes
    std::string over;       // why there is none
    uint32_t number;        // among the places
    std::vector<bool> step; // by session: some step takes it
    std::vector<bool> value; // some field ends in it
};

struct HandedAttribute {
    std::string uri, name, key;
};

// The record of an element's start.
Record start_record(const KnownName &name, const std::vector<unsigned> &numbers,
                    const std::vector<const HandedAttribute *> &attributes);

// A session on its way through a report.
class Track {
  public:
    Track(const Part &part, size_t number, bool hands_in_all);

    // The constraints of an element that starts, by their numbers in this session.
    std::vector<unsigned> numbers_of(const std::vector<int> &places) const;
    bool is_within() const { return !open_.empty(); } // some scope is open

    void start(uint32_t element, const KnownName &name, const std::vector<unsigned> &numbers,
               const std::vector<HandedAttribute> &attributes);
    bool wants_value() const { return open_.back().handed_in && open_.back().wants_value; }
    void end(unsigned simple, const std::string &key);
    void finish();
    void break_off() { session_.flush(); } // the report ended early: what there is is judged

    const Part &part() const { return part_; }
    const Session &session() const { return session_; }
    uint32_t element_of(uint64_t event) const;
    uint32_t element_of_scope(uint32_t scope) const;

    // Why it stopped before the end, with the element; empty: it did not.
    const std::string &stopped() const { return stopped_; }
    uint32_t stopped_at() const { return stopped_at_; }
    bool is_whole() const { return finished_ && stopped_.empty(); }

  private:
    struct Open {
        uint32_t element;
        bool handed_in, wants_value, on_the_way;
        std::vector<unsigned> numbers;
        std::string record; // while it is held back
    };
    void stop(const std::string &why, uint32_t element);
    void hand_in_held();

    const Part &part_;
    size_t number_; // among the sessions
    bool hands_in_all_;
    Session session_;
    std::vector<Open> open_;            // from the outermost scope's element on
    size_t held_ = 0;                   // the innermost of them, which are not handed in
    std::vector<uint32_t> of_event_, of_scope_;
    bool finished_ = false;
    std::string stopped_;
    uint32_t stopped_at_ = Places::NONE;
};

#endif
