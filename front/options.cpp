#include "options.h"

#include <cstdlib>
#include <map>

#include <unistd.h>

using std::string;
using std::vector;

const char *const USAGE_LINE = "usage: zograxt check [options] SCHEMA.xsd REPORT.xml..\n"
                               "       zograxt --help | --version\n";

const char *const HELP_TEXT =
    "zograxt check [options] SCHEMA.xsd REPORT.xml..\n"
    "\n"
    "Checks reports against a schema: its identity constraints (unique, key, keyref) by the\n"
    "proved library, all else by Xerces-C. A REPORT of - is standard input.\n"
    "\n"
    "  --json          a JSON object for each report, on a line of its own\n"
    "  --quiet         no output but the exit status\n"
    "  --most N        at most N faults of each report are told (100); all are counted\n"
    "  --records FILE  writes the records that the library was handed\n"
    "  --raw           names as the library has them: a name without a prefix is in any\n"
    "                  namespace, attributes go by their local names\n"
    "  --entities      reads external entities and DTDs that are local files\n"
    "  --progress      says how far it is (on by itself on a terminal, for long input)\n"
    "  --all           hands in every element of a scope, not only what a path can reach\n"
    "  --apart         gives each constraint a session of its own\n"
    "  --help, --version\n"
    "\n"
    "Exit status: 0 valid; 1 an identity constraint reports something; 2 not valid otherwise;\n"
    "3 not well formed; 4 the schema is refused; 5 over a limit, not wholly checked; 64 usage.\n";

static Options wrong(Options o, const string &why) {
    o.what = Options::WRONG;
    o.wrong = why;
    return o;
}

// A whole number without a sign.
static bool read_number(const string &word, size_t &number) {
    if (word.empty() || word.size() > 18) return false;
    for (char c : word)
        if (c < '0' || c > '9') return false;
    number = size_t(strtoull(word.c_str(), nullptr, 10));
    return true;
}

static bool read_switch(const string &word, Options &o) {
    const std::map<string, bool *> switches = {
        {"--raw", &o.raw},           {"--json", &o.json},         {"--quiet", &o.quiet},
        {"--progress", &o.progress}, {"--entities", &o.entities}, {"--all", &o.all},
        {"--apart", &o.apart},
    };
    auto found = switches.find(word);
    if (found == switches.end()) return false;
    *found->second = true;
    return true;
}

static Options read_check(const vector<string> &words) {
    Options o;
    o.progress = isatty(2) && isatty(1);
    vector<string> files;
    bool names_only = false; // behind `--`
    for (size_t i = 1; i < words.size(); ++i) {
        const string &word = words[i];
        if (names_only || word == "-" || word.empty() || word[0] != '-') files.push_back(word);
        else if (word == "--") names_only = true;
        else if (word == "--help") o.what = Options::HELP;
        else if (word == "--version") o.what = Options::VERSION;
        else if (read_switch(word, o)) continue;
        else if (word != "--most" && word != "--records") return wrong(o, "no option " + word);
        else if (i + 1 == words.size()) return wrong(o, word + " lacks what follows it");
        else if (word == "--records") o.records = words[++i];
        else if (!read_number(words[++i], o.most)) return wrong(o, "--most takes a number");
    }
    if (o.what != Options::CHECK) return o;
    if (files.size() < 2) return wrong(o, "a schema and a report are needed");
    if (!o.records.empty() && files.size() > 2)
        return wrong(o, "--records goes with a single report");
    o.schema = files[0];
    o.reports.assign(files.begin() + 1, files.end());
    if (o.schema == "-") return wrong(o, "the schema can't come from standard input");
    return o;
}

Options read_options(const vector<string> &words) {
    Options o;
    if (words.empty()) return wrong(o, "nothing to do");
    if (words[0] == "check") return read_check(words);
    if (words[0] == "--help" || words[0] == "help") o.what = Options::HELP;
    else if (words[0] == "--version") o.what = Options::VERSION;
    else return wrong(o, "no command " + words[0]);
    return o;
}
