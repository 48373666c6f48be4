// What is told of a report: its faults in words or as JSON, and the counts of each constraint.
#ifndef ZOGRAXT_WORDS_H
#define ZOGRAXT_WORDS_H

#include <ostream>
#include <string>
#include <vector>

#include "options.h"
#include "plan.h"
#include "reader.h"
#include "schema.h"

// A report of the library, with its places in the XML.
struct Finding {
    const Constraint *constraint;
    unsigned kind; // 1 to 7, of documents 01 and 02
    uint64_t line, column;
    std::string path, scope; // of the selected element, and of the element with the constraint
    std::vector<std::string> values;  // of kinds 4 and 5
    uint64_t earlier_line = 0;        // of kind 4
    std::string earlier_path;
    std::string words;
};

// The numbers of the contract. Of unique and key: reached = kept + rejected. Of keyref: so many
// references, of which so many lead nowhere; rejected are those with a field at fault.
struct Counts {
    const Constraint *constraint;
    bool whole; // the report was checked to its end; else references are not judged yet
    uint64_t kept = 0, rejected = 0, nowhere = 0;
    uint64_t reached() const { return kept + rejected; }
};

// A session that stopped before the end of the report.
struct Stop {
    uint64_t line, column;
    std::string path, words;
};

struct Told {
    Status status = VALID;
    std::string file;
    std::vector<Fault> faults; // of XML and schema; the first ones
    size_t fault_count = 0;
    std::vector<Finding> findings; // the first ones
    size_t finding_count = 0;
    std::vector<Counts> counts;
    std::vector<Stop> stops;
    std::vector<std::string> unchecked;
};

Told gather(const ReportReader &reader, Status read, const Schema &schema, const Plan &plan,
            const Options &options, const std::string &file);

void print(const Told &told, const Options &options, std::ostream &out);

#endif
