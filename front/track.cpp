#include "track.h"

#include "refusals.h"

using std::string;
using std::vector;

Track::Track(const Part &part, size_t number, bool hands_in_all)
    : part_(part), number_(number), hands_in_all_(hands_in_all), of_event_(1, Places::NONE),
      of_scope_(1, Places::NONE) {
    for (const string &record : part.definitions) {
        session_.hand_in(record);
        of_event_.push_back(Places::NONE);
    }
}

vector<unsigned> Track::numbers_of(const vector<int> &places) const {
    vector<unsigned> out;
    for (int place : places) {
        int number = part_.number_of(place);
        if (number >= 0) out.push_back(unsigned(number));
    }
    return out;
}

Record start_record(const KnownName &name, const vector<unsigned> &numbers,
                    const vector<const HandedAttribute *> &attributes) {
    Record out("ES");
    out.text(name.space_text, TEXT_MOST, "its namespace");
    out.text(name.handed_in, TEXT_MOST, "its name");
    out.count(numbers.size(), LISTED_MOST, "constraints");
    for (unsigned number : numbers) out.byte(number);
    out.count(attributes.size(), ATTRIBUTE_MOST, "attributes that a field may take");
    for (const HandedAttribute *attribute : attributes) {
        out.text(attribute->name, TEXT_MOST, "the name of an attribute");
        out.text(attribute->key, KEY_MOST, "a key");
    }
    out.close();
    return out;
}

// An element that no step takes is on no path, nor is what is below it. It is held back until a
// scope opens below.
void Track::start(uint32_t element, const KnownName &name, const vector<unsigned> &numbers,
                  const vector<HandedAttribute> &attributes) {
    if (!stopped_.empty() || (open_.empty() && numbers.empty())) return;
    vector<const HandedAttribute *> reached;
    for (const HandedAttribute &attribute : attributes)
        if (part_.reach.has_attribute(attribute.uri, attribute.name)) reached.push_back(&attribute);
    bool above = open_.empty() || open_.back().on_the_way;
    bool on_the_way = hands_in_all_ || !numbers.empty() || part_.reach.descends ||
                      (above && name.step[number_]);
    bool wants_value = hands_in_all_ || name.value[number_];
    string record = name.start, over = name.over;
    if (!numbers.empty() || !reached.empty()) {
        Record made = start_record(name, numbers, reached);
        record = made.bytes();
        over = made.over();
    }
    if (!over.empty()) return stop(over, element);
    open_.push_back({element, false, wants_value, on_the_way, numbers, std::move(record)});
    ++held_;
    if (on_the_way) hand_in_held();
}

void Track::hand_in_held() {
    for (size_t i = open_.size() - held_; i < open_.size(); ++i) {
        Open &o = open_[i];
        session_.hand_in(o.record);
        of_event_.push_back(o.element);
        o.handed_in = true;
        o.record.clear();
        of_scope_.insert(of_scope_.end(), o.numbers.size(), o.element);
    }
    held_ = 0;
}

// The end of an element without a value.
static const string PLAIN_END("EE\x03\0\0\0\0", 7);

static Record end_record(unsigned simple, const string &key) {
    Record out("EE");
    out.byte(simple);
    out.text(key, KEY_MOST, "a key");
    out.close();
    return out;
}

void Track::end(unsigned simple, const string &key) {
    Open ended = std::move(open_.back());
    open_.pop_back();
    if (!ended.handed_in) {
        --held_;
        return;
    }
    // A key is always within its limit: key_of sees to it.
    if (simple == 0) session_.hand_in(PLAIN_END);
    else session_.hand_in(end_record(simple, key).bytes());
    of_event_.push_back(ended.element);
    if (session_.refused())
        stop(refusal_words(session_.refused()), element_of(session_.refused_event()));
}

void Track::finish() {
    if (!stopped_.empty()) return;
    finished_ = true;
    Record record("FI");
    record.close();
    session_.hand_in(record.bytes());
    session_.flush();
    if (session_.refused())
        stop(refusal_words(session_.refused()), element_of(session_.refused_event()));
}

void Track::stop(const string &why, uint32_t element) {
    session_.flush();
    stopped_ = why;
    stopped_at_ = element;
    open_.clear();
    held_ = 0;
}

uint32_t Track::element_of(uint64_t event) const {
    return event < of_event_.size() ? of_event_[event] : Places::NONE;
}

uint32_t Track::element_of_scope(uint32_t scope) const {
    return scope < of_scope_.size() ? of_scope_[scope] : Places::NONE;
}
