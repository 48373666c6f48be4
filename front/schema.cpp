#include "schema.h"

#include <set>

#include <xercesc/framework/psvi/XSIDCDefinition.hpp>
#include <xercesc/framework/psvi/XSNamedMap.hpp>
#include <xercesc/sax/SAXParseException.hpp>
#include <xercesc/util/QName.hpp>
#include <xercesc/util/XMLStringTokenizer.hpp>
#include <xercesc/validators/schema/SchemaElementDecl.hpp>
#include <xercesc/validators/schema/SchemaGrammar.hpp>
#include <xercesc/validators/schema/identity/IC_Field.hpp>
#include <xercesc/validators/schema/identity/IC_KeyRef.hpp>
#include <xercesc/validators/schema/identity/IC_Selector.hpp>

#include "schema_paths.h"
#include "texts.h"

using namespace xercesc;
using std::string;
using std::vector;

const char *Constraint::kind_word() const {
    return kind == UNIQUE ? "unique" : kind == KEY ? "key" : "keyref";
}

// ---- reading

namespace {

// Keeps what Xerces-C says of the schema.
struct SchemaFaults : DefaultHandler {
    explicit SchemaFaults(vector<Fault> &faults) : faults(faults) {}
    void note(const SAXParseException &e) {
        ++count;
        faults.push_back({utf8(e.getSystemId()), e.getLineNumber(), e.getColumnNumber(),
                          utf8(e.getMessage())});
    }
    void error(const SAXParseException &e) override { note(e); }
    void fatalError(const SAXParseException &e) override { note(e); }
    vector<Fault> &faults;
    size_t count = 0;
};

} // namespace

Schema::Schema(bool entities)
    : pool_(XMLPlatformUtils::fgMemoryManager), reader_(&pool_, entities) {
    reader_.setFeature(XMLUni::fgSAX2CoreValidation, true);
    reader_.setFeature(XMLUni::fgXercesSchema, true);
    reader_.setFeature(XMLUni::fgXercesSchemaFullChecking, true);
    // Else the constraints of the schema are not read.
    reader_.setFeature(XMLUni::fgXercesIdentityConstraintChecking, true);
}

Status Schema::load(const string &file, vector<Fault> &faults) {
    std::set<string> looked_through;
    reader_.on_schema_file = [&](const string &included) {
        if (looked_through.insert(included).second) check_schema_paths(included, faults);
    };
    SchemaFaults handler(faults);
    reader_.setErrorHandler(&handler);
    Grammar *grammar = nullptr;
    try {
        reader_.on_schema_file(file);
        size_t found = faults.size();
        Input input(file);
        if (found == 0)
            grammar = reader_.loadGrammar(input.source(), Grammar::SchemaGrammarType, true);
    } catch (const Refusal &e) {
        faults.push_back({file, 0, 0, e.words});
        return e.status == USAGE ? USAGE : SCHEMA_REFUSED;
    } catch (const XMLException &e) {
        faults.push_back({file, 0, 0, utf8(e.getMessage())});
    } catch (const SAXException &e) {
        faults.push_back({file, 0, 0, utf8(e.getMessage())});
    }
    reader_.on_schema_file = nullptr;
    reader_.setErrorHandler(nullptr);
    if (!grammar && faults.empty()) faults.push_back({file, 0, 0, "is no schema"});
    if (!grammar || !faults.empty()) return SCHEMA_REFUSED;
    collect();
    return VALID;
}

BoundedReader &Schema::reader_for_report() {
    reader_.setFeature(XMLUni::fgXercesIdentityConstraintChecking, false);
    reader_.setFeature(XMLUni::fgXercesUseCachedGrammarInParse, true);
    reader_.setFeature(XMLUni::fgXercesLoadSchema, false);
    reader_.over_entities = false;
    on_.clear();
    return reader_;
}

// ---- constraints

static NameTest name_test(XercesNodeTest *test, XMLGrammarPoolImpl &pool) {
    NameTest out;
    if (test->getType() == XercesNodeTest::NodeType_WILDCARD) {
        out.any_space = out.any_local = true;
        return out;
    }
    QName *name = test->getName();
    out.prefix = utf8(name->getPrefix());
    // A name without a prefix is in no namespace.
    if (!out.prefix.empty())
        out.space = utf8(pool.getURIStringPool()->getValueForId(name->getURI()));
    out.any_local = test->getType() == XercesNodeTest::NodeType_NAMESPACE;
    if (!out.any_local) out.local = utf8(name->getLocalPart());
    return out;
}

Path Schema::path_of(XercesXPath *path) const {
    auto &pool = const_cast<XMLGrammarPoolImpl &>(pool_);
    Path out;
    out.text = utf8(path->getExpression());
    auto *alternatives = path->getLocationPaths();
    for (XMLSize_t a = 0; a < alternatives->size(); ++a) {
        Alternative alternative;
        XercesLocationPath *steps = alternatives->elementAt(a);
        for (XMLSize_t i = 0; i < steps->getStepSize(); ++i) {
            XercesStep *step = steps->getStep(i);
            switch (step->getAxisType()) {
            case XercesStep::AxisType_SELF: break;
            case XercesStep::AxisType_DESCENDANT: alternative.descends = true; break;
            case XercesStep::AxisType_ATTRIBUTE:
                alternative.has_attribute = true;
                alternative.attribute = name_test(step->getNodeTest(), pool);
                break;
            default: alternative.steps.push_back(name_test(step->getNodeTest(), pool));
            }
        }
        out.alternatives.push_back(alternative);
    }
    return out;
}

// The key that a keyref refers to is taken with it: its element may be in another namespace.
int Schema::place_of(IdentityConstraint *constraint) {
    auto known = places_.find(constraint);
    if (known != places_.end()) return known->second;
    Constraint c;
    c.kind = Constraint::Kind(constraint->getType());
    c.name = utf8(constraint->getIdentityConstraintName());
    c.space = utf8(pool_.getURIStringPool()->getValueForId(constraint->getNamespaceURI()));
    c.selector = path_of(constraint->getSelector()->getXPath());
    for (XMLSize_t f = 0; f < constraint->getFieldCount(); ++f)
        c.fields.push_back(path_of(constraint->getFieldAt(f)->getXPath()));
    int place = int(constraints_.size());
    places_[constraint] = place;
    constraints_.push_back(c);
    if (c.kind == Constraint::KEYREF) {
        IdentityConstraint *key = static_cast<IC_KeyRef *>(constraint)->getKey();
        int refer = key ? place_of(key) : -1;
        constraints_[size_t(place)].refer = refer;
    }
    return place;
}

// Every constraint of the schema, those on local elements too.
void Schema::collect() {
    int number = 0;
    RefHashTableOfEnumerator<Grammar> grammars = pool_.getGrammarEnumerator();
    while (grammars.hasMoreElements()) {
        Grammar &grammar = grammars.nextElement();
        if (grammar.getGrammarType() != Grammar::SchemaGrammarType) continue;
        auto elements = static_cast<SchemaGrammar &>(grammar).getElemEnumerator();
        while (elements.hasMoreElements()) {
            SchemaElementDecl &element = elements.nextElement();
            for (XMLSize_t i = 0; i < element.getIdentityConstraintCount(); ++i) {
                int place = place_of(element.getIdentityConstraintAt(i));
                constraints_[size_t(place)].element = number;
            }
            ++number;
        }
    }
}

// The definition behind Xerces-C's view of it, which has the paths as texts only.
struct Behind : XSIDCDefinition {
    static IdentityConstraint *XSIDCDefinition::*definition() {
        return &Behind::fIdentityConstraint;
    }
};

const vector<int> &Schema::on(XSElementDeclaration *declaration) {
    static const vector<int> none;
    if (!declaration) return none;
    auto known = on_.find(declaration);
    if (known != on_.end()) return known->second;
    vector<int> &places = on_[declaration];
    auto *constraints = declaration->getIdentityConstraints();
    for (XMLSize_t i = 0; constraints && i < constraints->getLength(); ++i)
        places.push_back(place_of(constraints->item(i)->*Behind::definition()));
    return places;
}
