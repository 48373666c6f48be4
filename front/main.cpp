// zograxt check SCHEMA.xsd REPORT.xml: the identity constraints of XML Schema, checked.
//
// Xerces-C reads schema and report and says of each element and attribute its declaration, type
// and value. Of these records are made for the proved library (include/identity.h), which finds
// what the constraints report; its numbers are told in words here. What is proved is the library;
// what this program makes of XML is tested. docs/FRONT.md has its rules.
#include <fstream>
#include <iostream>

#include <xercesc/util/PlatformUtils.hpp>
#include <xercesc/util/XMLNetAccessor.hpp>
#include <xercesc/util/XercesVersion.hpp>

#include "identity.h"
#include "input.h"
#include "options.h"
#include "plan.h"
#include "reader.h"
#include "schema.h"
#include "words.h"

using std::string;
using std::vector;

static const char VERSION[] = "0.1";

// The records of each session: of the second and further ones beside FILE in FILE.2 and so on.
static bool write_records(const ReportReader &reader, const string &file) {
    bool written = true;
    for (size_t i = 0; i < reader.tracks().size(); ++i) {
        string name = i == 0 ? file : file + "." + std::to_string(i + 1);
        std::ofstream out(name, std::ios::binary);
        out << reader.tracks()[i]->session().records();
        written = written && out.flush();
    }
    return written;
}

// A report, or a schema, that could not be read at all.
static Status refuse(const string &file, Status status, const vector<Fault> &faults,
                     const Options &options) {
    Told told;
    told.file = file;
    told.status = status;
    told.faults = faults;
    told.fault_count = faults.size();
    print(told, options, std::cout);
    return status;
}

// Whether some session stopped that others with fewer constraints might not.
static bool is_crowded(const ReportReader &reader) {
    for (const auto &track : reader.tracks())
        if (!track->stopped().empty() && track->part().constraints.size() > 1) return true;
    return false;
}

// Where a session stops at a limit, each constraint gets a session of its own in a second reading.
static Status check_input(const Input &input, Schema &schema, const Plan &plan,
                          const Options &options, bool alone) {
    ReportReader reader(schema, plan, options);
    Status read = reader.read(input);
    if (!alone && read == VALID && is_crowded(reader)) {
        Plan apart(options.raw);
        apart.make(schema.constraints(), true);
        return check_input(input, schema, apart, options, true);
    }
    Told told = gather(reader, read, schema, plan, options, input.name());
    print(told, options, std::cout);
    if (!options.records.empty() && !write_records(reader, options.records)) {
        std::cerr << options.records << ": can't be written\n";
        return USAGE;
    }
    return told.status;
}

static Status check_report(const string &file, Schema &schema, const Plan &plan,
                           const Options &options) {
    try {
        return check_input(Input(file), schema, plan, options, options.apart);
    } catch (const Refusal &e) {
        return refuse(file, e.status, {{file, 0, 0, e.words}}, options);
    } catch (const std::bad_alloc &) {
        return refuse(file, OVER_A_LIMIT, {{file, 0, 0, "too little memory"}}, options);
    }
}

static Status check(const Options &options) {
    Schema schema(options.entities);
    vector<Fault> faults;
    Status status = schema.load(options.schema, faults);
    if (status != VALID) return refuse(options.schema, status, faults, options);
    Plan plan(options.raw);
    plan.make(schema.constraints(), options.apart);
    for (const string &report : options.reports)
        status = std::max(status, check_report(report, schema, plan, options));
    return status;
}

static void print_version() {
    std::cout << "zograxt " << VERSION << ", with the proved library " << IDENTITY_VERSION_MAJOR
              << "." << IDENTITY_VERSION_MINOR << " and Xerces-C " << XERCES_FULLVERSIONDOT << "\n";
}

int main(int count, char **words) {
    Options options = read_options(vector<string>(words + 1, words + count));
    switch (options.what) {
    case Options::HELP: std::cout << HELP_TEXT; return VALID;
    case Options::VERSION: print_version(); return VALID;
    case Options::WRONG:
        std::cerr << "zograxt: " << options.wrong << "\n" << USAGE_LINE;
        return USAGE;
    case Options::CHECK: break;
    }
    xercesc::XMLPlatformUtils::Initialize();
    // No network: whatever asks for it gets an error.
    delete xercesc::XMLPlatformUtils::fgNetAccessor;
    xercesc::XMLPlatformUtils::fgNetAccessor = nullptr;
    Status status = check(options);
    xercesc::XMLPlatformUtils::Terminate();
    return status;
}
