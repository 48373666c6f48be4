#include "words.h"

#include "texts.h"

using std::ostream;
using std::string;
using std::vector;

// ---- in words

static string place(const string &file, uint64_t line, uint64_t column) {
    if (line == 0) return file;
    return file + ":" + std::to_string(line) + ":" + std::to_string(column);
}

static void print_more(size_t count, size_t shown, const char *what, const Told &told,
                       ostream &out) {
    if (count > shown) out << told.file << ": " << count - shown << " more " << what << "\n";
}

static void print_counts(const Counts &c, ostream &out) {
    out << c.constraint->kind_word() << " '" << c.constraint->name << "': ";
    if (c.constraint->kind == Constraint::KEYREF) {
        out << c.kept << (c.kept == 1 ? " reference, " : " references, ");
        if (c.whole) out << c.nowhere << (c.nowhere == 1 ? " leads nowhere" : " lead nowhere");
        else out << "not looked up";
        if (c.rejected) out << ", " << c.rejected << " more with a field at fault";
    } else {
        out << c.reached() << " reached = " << c.kept << " kept + " << c.rejected << " rejected";
    }
    out << (c.whole ? "\n" : ", as far as it was checked\n");
}

// Of several reports each count has its file before it.
static void print_words(const Told &told, bool several, ostream &out) {
    for (const Fault &f : told.faults)
        out << place(f.file, f.line, f.column) << ": " << on_a_line(f.words) << "\n";
    print_more(told.fault_count, told.faults.size(), "faults of this sort", told, out);
    for (const Finding &f : told.findings)
        out << place(told.file, f.line, f.column) << ": " << f.path << ": "
            << f.constraint->kind_word() << " '" << f.constraint->name << "': " << f.words << "\n";
    print_more(told.finding_count, told.findings.size(), "reports", told, out);
    for (const Stop &s : told.stops)
        out << place(told.file, s.line, s.column) << ": " << (s.path.empty() ? "" : s.path + ": ")
            << "not checked from here on: " << s.words << "\n";
    for (const string &words : told.unchecked) out << told.file << ": " << words << "\n";
    for (const Counts &counts : told.counts) {
        if (several) out << told.file << ": ";
        print_counts(counts, out);
    }
}

// ---- as JSON

static string pair(const char *name, const string &value) {
    return json_text(name) + ":" + json_text(value);
}

static string pair(const char *name, uint64_t value) {
    return json_text(name) + ":" + std::to_string(value);
}

template <typename Item, typename Write>
static string list(const char *name, const vector<Item> &items, Write write) {
    string out;
    for (const Item &item : items) out += (out.empty() ? "" : ",") + write(item);
    return json_text(name) + ":[" + out + "]";
}

static string json_fault(const Fault &f) {
    return "{" + pair("file", f.file) + "," + pair("line", f.line) + "," +
           pair("column", f.column) + "," + pair("message", f.words) + "}";
}

static string json_finding(const Finding &f) {
    string out = "{" + pair("line", f.line) + "," + pair("column", f.column) + "," +
                 pair("path", f.path) + "," + pair("kind", f.kind) + "," +
                 pair("type", f.constraint->kind_word()) + "," +
                 pair("constraint", f.constraint->name) + "," + pair("scope", f.scope) + "," +
                 list("values", f.values, json_text);
    if (f.kind == 4)
        out += "," + pair("earlier_line", f.earlier_line) + "," +
               pair("earlier_path", f.earlier_path);
    return out + "," + pair("message", f.words) + "}";
}

static string json_counts(const Counts &c) {
    string out = "{" + pair("type", c.constraint->kind_word()) + "," +
                 pair("constraint", c.constraint->name) + ",";
    if (c.constraint->kind == Constraint::KEYREF)
        out += pair("references", c.kept) + "," + pair("nowhere", c.nowhere) + ",";
    else out += pair("reached", c.reached()) + "," + pair("kept", c.kept) + ",";
    out += pair("rejected", c.rejected);
    return out + (c.whole ? "}" : ",\"whole\":false}");
}

static string json_stop(const Stop &s) {
    return "{" + pair("line", s.line) + "," + pair("column", s.column) + "," +
           pair("path", s.path) + "," + pair("message", s.words) + "}";
}

static void print_json(const Told &told, ostream &out) {
    out << "{" << pair("file", told.file) << "," << pair("status", uint64_t(told.status)) << ","
        << list("faults", told.faults, json_fault) << "," << pair("fault_count", told.fault_count)
        << "," << list("reports", told.findings, json_finding) << ","
        << pair("report_count", told.finding_count) << ","
        << list("constraints", told.counts, json_counts) << ","
        << list("stops", told.stops, json_stop) << ","
        << list("unchecked", told.unchecked, json_text) << "}\n";
}

void print(const Told &told, const Options &options, ostream &out) {
    if (options.quiet) return;
    if (options.json) print_json(told, out);
    else print_words(told, options.reports.size() > 1, out);
    out.flush();
}
