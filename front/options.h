// The command line: what it may say, and what it means.
#ifndef ZOGRAXT_OPTIONS_H
#define ZOGRAXT_OPTIONS_H

#include <cstddef>
#include <string>
#include <vector>

struct Options {
    enum What { CHECK, HELP, VERSION, WRONG };
    What what = CHECK;
    std::string wrong; // of WRONG: why

    bool raw = false;      // document 01's meaning of names in place of Part 1's
    bool json = false;     // an object for each report, a line each
    bool quiet = false;    // the exit status alone
    bool progress = false; // how far it is, on standard error
    bool entities = false; // external entities that are local files are read
    bool all = false;      // hands in elements that no path can reach, too
    bool apart = false;    // a session for each constraint
    size_t most = 100;     // so many lines of a sort are told of each report
    std::string records;   // the file that the records are written to, if any

    std::string schema;
    std::vector<std::string> reports; // `-` is standard input
};

Options read_options(const std::vector<std::string> &words);

extern const char *const USAGE_LINE;
extern const char *const HELP_TEXT;

#endif
