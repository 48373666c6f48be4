#include "session.h"

#include <algorithm>
#include <cstdio>
#include <cstdlib>
#include <unordered_map>

#include <sys/mman.h>

#include "identity.h"

using std::string;
using std::string_view;
using std::vector;

// At most 32 selections end at each of 500,000 ends of elements: that many reports always fit.
static const size_t TUPLE_BYTES = size_t(1) << 32, REPORT_BYTES = size_t(1) << 29;
static const size_t DEFINITION_BYTES = 1 << 20;
static const size_t PIECE_LEAST = 1 << 18, PIECE_MOST = 1 << 26;

Lent::Lent(size_t length) : bytes_(nullptr), length_(length) {
    for (; length_ >= 4096 || length_ == length; length_ /= 2) {
        void *at = mmap(nullptr, length_, PROT_READ | PROT_WRITE,
                        MAP_PRIVATE | MAP_ANONYMOUS | MAP_NORESERVE, -1, 0);
        if (at == MAP_FAILED) continue;
        bytes_ = static_cast<uint8_t *>(at);
        return;
    }
    throw std::bad_alloc();
}

Lent::~Lent() { munmap(bytes_, length_); }

Session::Session()
    : definitions_(DEFINITION_BYTES), tuples_(TUPLE_BYTES), reports_(REPORT_BYTES),
      paths_(IDENTITY_PATHS_MIN), scopes_(IDENTITY_SCOPES_MIN), names_(IDENTITY_NAMES_MIN),
      cells_(IDENTITY_CELLS_MIN) {}

// ---- handing in

void Session::hand_in(const string &record) {
    if (refused_) return;
    records_ += record;
    ++events_;
    size_t piece = std::min(std::max(taken_, PIECE_LEAST), PIECE_MOST);
    if (records_.size() - taken_ >= piece) flush();
}

void Session::flush() {
    if (refused_ || records_.size() == taken_) return;
    uint64_t taken = 0;
    uint64_t *n = numbers_;
    refused_ = identity_run(
        &n[0], &n[1], &n[2], &n[3], &n[4],
        reinterpret_cast<const uint8_t *>(records_.data()) + taken_, records_.size() - taken_,
        definitions_.bytes(), definitions_.length(), tuples_.bytes(), tuples_.length(),
        reports_.bytes(), reports_.length(), paths_.bytes(), paths_.length(), scopes_.bytes(),
        scopes_.length(), names_.bytes(), names_.length(), cells_.bytes(), cells_.length(), &taken);
    taken_ += size_t(taken);
}

// ---- what was found

static uint32_t two(const uint8_t *at) { return uint32_t(at[0] | at[1] << 8); }
static uint32_t four(const uint8_t *at) { return two(at) | two(at + 2) << 16; }

vector<Report> Session::reports() const {
    vector<Report> out;
    for (uint64_t at = 0; at + 18 <= numbers_[4]; at += 18) {
        const uint8_t *r = reports_.bytes() + at;
        out.push_back({r[2], r[3], r[4], four(r + 6), four(r + 14), four(r + 10)});
    }
    return out;
}

// Each stored record as it stands: mark, length, constraint, scope, fields.
static vector<string_view> frames(const Lent &store, uint64_t used) {
    vector<string_view> out;
    for (uint64_t at = 0; at < used; at += out.back().size())
        out.emplace_back(reinterpret_cast<const char *>(store.bytes()) + at,
                         4 + two(store.bytes() + at + 2));
    return out;
}

vector<string_view> Session::stored() const { return frames(tuples_, numbers_[3]); }

vector<uint64_t> Session::tuples_by_constraint() const {
    vector<uint64_t> out(256);
    for (string_view frame : stored()) ++out[uint8_t(frame[4])];
    return out;
}

static Tuple tuple_of(string_view frame) {
    const uint8_t *t = reinterpret_cast<const uint8_t *>(frame.data());
    Tuple out{t[4], four(t + 5), {}};
    size_t at = 10;
    for (unsigned i = 0; i < t[9]; ++i) {
        out.keys.emplace_back(frame.substr(at + 2, two(t + at)));
        at += 2 + two(t + at);
    }
    return out;
}

vector<Tuple> Session::tuples(const vector<uint32_t> &numbers) const {
    vector<string_view> all = stored();
    vector<Tuple> out;
    for (uint32_t number : numbers)
        out.push_back(number > 0 && number <= all.size() ? tuple_of(all[number - 1]) : Tuple{});
    return out;
}

// ---- where tuples come from

namespace {

// The records once more, one by one, over stores that are emptied after each: what stands there
// then was stored by that record. A tuple that the first run found to be there before is stored
// again here, so a tuple is known by its bytes, and by how many with the same bytes went before.
class Replay {
  public:
    Replay()
        : definitions_(DEFINITION_BYTES), tuples_(1 << 16), reports_(1 << 16),
          paths_(IDENTITY_PATHS_MIN), scopes_(IDENTITY_SCOPES_MIN), names_(IDENTITY_NAMES_MIN),
          cells_(IDENTITY_CELLS_MIN) {}

    vector<string_view> stored_by(const uint8_t *record, size_t length) {
        uint64_t *n = numbers_;
        n[3] = n[4] = 0;
        identity_record(&n[0], &n[1], &n[2], &n[3], &n[4], record, length, definitions_.bytes(),
                        definitions_.length(), tuples_.bytes(), tuples_.length(), reports_.bytes(),
                        reports_.length(), paths_.bytes(), paths_.length(), scopes_.bytes(),
                        scopes_.length(), names_.bytes(), names_.length(), cells_.bytes(),
                        cells_.length());
        return frames(tuples_, n[3]);
    }

  private:
    uint64_t numbers_[5] = {0, 0, 0, 0, 0};
    Lent definitions_, tuples_, reports_, paths_, scopes_, names_, cells_;
};

} // namespace

// Of the bytes of each wanted tuple, the numbers of all tuples with these bytes, in order.
using Alike = std::unordered_map<string_view, vector<uint32_t>>;

static Alike alike_of(const vector<string_view> &stored, const vector<uint32_t> &wanted) {
    Alike out;
    for (uint32_t number : wanted)
        if (number > 0 && number <= stored.size()) out[stored[number - 1]];
    for (size_t i = 0; i < stored.size() && !out.empty(); ++i) {
        auto found = out.find(stored[i]);
        if (found != out.end()) found->second.push_back(uint32_t(i + 1));
    }
    return out;
}

vector<uint64_t> Session::origins(const vector<uint32_t> &wanted) const {
    Alike alike = alike_of(stored(), wanted);
    std::unordered_map<uint32_t, uint64_t> event_of;
    std::unordered_map<string_view, size_t> met; // how many with these bytes went before
    const uint8_t *bytes = reinterpret_cast<const uint8_t *>(records_.data());
    Replay replay;
    uint64_t event = 0;
    for (size_t at = 0; at < taken_ && !alike.empty();) {
        size_t length = 4 + two(bytes + at + 2);
        ++event;
        for (string_view frame : replay.stored_by(bytes + at, length)) {
            auto found = alike.find(frame);
            if (found == alike.end()) continue;
            size_t before = met[found->first]++;
            if (before < found->second.size()) event_of[found->second[before]] = event;
        }
        at += length;
    }
    vector<uint64_t> out;
    for (uint32_t number : wanted) out.push_back(event_of[number]);
    return out;
}
