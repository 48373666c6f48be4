// The schema: its identity constraints with resolved paths, and which of them an element bears.
//
// Xerces-C reads it. Beside that each schema file is looked through for its paths, and each path
// is put to the proved checker, so that a bad one is told with its place and the checker's reason.
#ifndef ZOGRAXT_SCHEMA_H
#define ZOGRAXT_SCHEMA_H

#include <map>
#include <memory>
#include <string>
#include <vector>

#include <xercesc/framework/XMLGrammarPoolImpl.hpp>
#include <xercesc/framework/psvi/XSElementDeclaration.hpp>
#include <xercesc/validators/schema/identity/IdentityConstraint.hpp>
#include <xercesc/validators/schema/identity/XercesXPath.hpp>

#include "input.h"
#include "paths.h"

struct Constraint {
    enum Kind { UNIQUE, KEY, KEYREF };
    Kind kind = UNIQUE;
    std::string name, space;
    Path selector;
    std::vector<Path> fields;
    int refer = -1;   // of a keyref: the place of its key among the constraints
    int element = -1; // which element declaration bears it, by a number

    const char *kind_word() const;
};

class Schema {
  public:
    explicit Schema(bool entities);

    // Answers VALID, or why it can't be used; what is wrong stands in `faults`.
    Status load(const std::string &file, std::vector<Fault> &faults);

    const std::vector<Constraint> &constraints() const { return constraints_; }

    // The constraints of an element with this declaration, by their places; null has none.
    const std::vector<int> &on(xercesc::XSElementDeclaration *declaration);

    // The reader that has the schema, for a report. A locked pool, or another reader, would
    // leave elements without their declarations (Xerces-C 3.2).
    BoundedReader &reader_for_report();
    const BoundedReader &reader() const { return reader_; }

  private:
    Path path_of(xercesc::XercesXPath *path) const;
    int place_of(xercesc::IdentityConstraint *constraint);
    void collect();

    xercesc::XMLGrammarPoolImpl pool_;
    BoundedReader reader_;
    std::vector<Constraint> constraints_;
    std::map<xercesc::IdentityConstraint *, int> places_;
    std::map<xercesc::XSElementDeclaration *, std::vector<int>> on_;
};

#endif
