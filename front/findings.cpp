// From the library's numbers to what is told: places, values, counts.
#include "words.h"

#include "keys.h"

using std::string;
using std::vector;

static string quoted(const vector<string> &values) {
    string out;
    for (const string &value : values) out += (out.empty() ? "'" : ", '") + value + "'";
    return out;
}

static string words_of(const Finding &f, unsigned field, const vector<Constraint> &all) {
    const Constraint &c = *f.constraint;
    switch (f.kind) {
    case 1: return "a field leads to several values";
    case 2: return "a field leads to an element without a simple value";
    case 3: return "field '" + c.fields[field].text + "' is missing";
    case 4:
        return quoted(f.values) + " was there before, at line " + std::to_string(f.earlier_line) +
               " (" + f.earlier_path + ")";
    case 5: {
        const Constraint &key = all[size_t(c.refer)];
        return quoted(f.values) + " leads nowhere: " + key.kind_word() + " '" + key.name +
               "' has no such value";
    }
    case 7: return "field '" + c.fields[field].text + "' leads to a nillable element";
    default: return "a path of it can't be read: it is not checked";
    }
}

// The numbers of each constraint of a session. A later library keeps these totals itself.
static vector<Counts> counts_of(const Track &track, const vector<Constraint> &all) {
    vector<Counts> out;
    for (int place : track.part().constraints)
        out.push_back({&all[size_t(place)], track.is_whole()});
    vector<uint64_t> kept = track.session().tuples_by_constraint();
    for (size_t i = 0; i < out.size(); ++i) out[i].kept = kept[i];
    for (const Report &report : track.session().reports()) {
        if (report.constraint >= out.size()) continue;
        Counts &counts = out[report.constraint];
        ++(report.kind == 5 ? counts.nowhere : counts.rejected);
    }
    return out;
}

namespace {

// The reports of one session, as findings.
class Finder {
  public:
    Finder(const ReportReader &reader, const Track &track, const vector<Constraint> &all)
        : places_(reader.places()), track_(track), all_(all) {}

    void find(Told &told, size_t most) {
        vector<Report> shown;
        for (const Report &report : track_.session().reports()) {
            if (!track_.part().told[report.constraint]) continue;
            ++told.finding_count;
            if (told.findings.size() + shown.size() < most) shown.push_back(report);
        }
        vector<uint32_t> wanted; // kinds 4 and 5 have a tuple, the others number 0
        for (const Report &report : shown) wanted.push_back(report.tuple);
        vector<Tuple> tuples = track_.session().tuples(wanted);
        vector<uint64_t> origins = track_.session().origins(wanted);
        for (size_t i = 0; i < shown.size(); ++i)
            told.findings.push_back(finding(shown[i], tuples[i], origins[i]));
    }

  private:
    Finding finding(const Report &report, const Tuple &tuple, uint64_t origin) const {
        Finding f{};
        f.constraint = &all_[size_t(track_.part().constraints[report.constraint])];
        f.kind = report.kind;
        uint32_t element = track_.element_of(report.kind == 5 ? origin : report.event);
        f.line = places_.line(element);
        f.column = places_.column(element);
        f.path = places_.path(element);
        f.scope = places_.path(track_.element_of_scope(report.scope));
        for (const string &key : tuple.keys) f.values.push_back(shown_key(key));
        if (report.kind == 4) {
            f.earlier_line = places_.line(track_.element_of(origin));
            f.earlier_path = places_.path(track_.element_of(origin));
        }
        f.words = words_of(f, report.field, all_);
        return f;
    }

    const Places &places_;
    const Track &track_;
    const vector<Constraint> &all_;
};

} // namespace

Told gather(const ReportReader &reader, Status read, const Schema &schema, const Plan &plan,
            const Options &options, const string &file) {
    Told told;
    told.file = file;
    told.faults = reader.faults();
    told.fault_count = reader.fault_count();
    told.unchecked = plan.unchecked;
    const Places &places = reader.places();
    for (const auto &track : reader.tracks()) {
        Finder(reader, *track, schema.constraints()).find(told, options.quiet ? 0 : options.most);
        vector<Counts> counts = counts_of(*track, schema.constraints());
        for (size_t i = 0; i < counts.size(); ++i)
            if (track->part().told[i]) told.counts.push_back(counts[i]);
        uint32_t at = track->stopped_at();
        if (!track->stopped().empty())
            told.stops.push_back({places.line(at), places.column(at), places.path(at),
                                  track->stopped()});
    }
    bool limited = !told.stops.empty() || !told.unchecked.empty();
    told.status = read != VALID             ? read
                  : limited                 ? OVER_A_LIMIT
                  : told.finding_count > 0  ? IDENTITY_FAULT
                  : told.fault_count > 0    ? NOT_VALID
                                            : VALID;
    return told;
}
