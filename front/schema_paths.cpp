#include "schema_paths.h"

#include <map>

#include <xercesc/sax/Locator.hpp>
#include <xercesc/sax/SAXParseException.hpp>
#include <xercesc/sax2/Attributes.hpp>
#include <xercesc/util/XMLString.hpp>
#include <xercesc/validators/schema/SchemaSymbols.hpp>

#include "paths.h"
#include "texts.h"

using namespace xercesc;
using std::string;
using std::vector;

namespace {

class PathFinder : public DefaultHandler {
  public:
    PathFinder(const string &file, vector<Fault> &faults) : file_(file), faults_(faults) {}

    void setDocumentLocator(const Locator *const locator) override { locator_ = locator; }
    void startPrefixMapping(const XMLCh *const prefix, const XMLCh *const) override {
        ++bound_[utf8(prefix)];
    }
    void endPrefixMapping(const XMLCh *const prefix) override { --bound_[utf8(prefix)]; }

    void startElement(const XMLCh *const space, const XMLCh *const local, const XMLCh *const,
                      const Attributes &attributes) override {
        if (!XMLString::equals(space, SchemaSymbols::fgURI_SCHEMAFORSCHEMA)) return;
        string name = utf8(local);
        if (name == "key" || name == "keyref" || name == "unique")
            owner_ = name + " '" + utf8(attributes.getValue(SchemaSymbols::fgATT_NAME)) + "'";
        if (name != "selector" && name != "field") return;
        const XMLCh *path = attributes.getValue(SchemaSymbols::fgATT_XPATH);
        if (path) check(name, utf8(path));
    }

    void fatalError(const SAXParseException &e) override {
        faults_.push_back({file_, e.getLineNumber(), e.getColumnNumber(), utf8(e.getMessage())});
    }

  private:
    void check(const string &part, const string &path) {
        string prefixes;
        for (const auto &bound : bound_)
            if (bound.second > 0 && !bound.first.empty())
                prefixes += (prefixes.empty() ? "" : " ") + bound.first;
        uint32_t answer = check_path(part == "field", path, prefixes);
        // A path over the checker's limit may still be within it once it is rewritten.
        if (answer < 100) return;
        faults_.push_back({file_, locator_->getLineNumber(), locator_->getColumnNumber(),
                           owner_ + ": " + part + " '" + path + "' is no path: " +
                               path_reason(answer)});
    }

    string file_, owner_;
    vector<Fault> &faults_;
    std::map<string, int> bound_; // how often each prefix is bound here
    const Locator *locator_ = nullptr;
};

} // namespace

void check_schema_paths(const string &file, vector<Fault> &faults) {
    PathFinder finder(file, faults);
    BoundedReader reader(nullptr, false);
    reader.setFeature(XMLUni::fgSAX2CoreValidation, false);
    reader.setContentHandler(&finder);
    reader.setErrorHandler(&finder);
    Input input(file);
    reader.parse(input.source());
    if (reader.over_entities)
        throw Refusal(SCHEMA_REFUSED, "over " + std::to_string(ENTITY_EXPANSIONS) + " entities");
}
