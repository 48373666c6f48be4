// A report, element by element, on its way to the sessions.
//
// Xerces-C calls for each element startElement, then its attributes with their values, then its
// declaration (with its end, where it is empty), and at its end its type and value.
#ifndef ZOGRAXT_READER_H
#define ZOGRAXT_READER_H

#include <ctime>
#include <memory>
#include <string>
#include <unordered_map>
#include <vector>

#include <xercesc/framework/psvi/PSVIAttributeList.hpp>
#include <xercesc/framework/psvi/PSVIElement.hpp>
#include <xercesc/framework/psvi/PSVIHandler.hpp>
#include <xercesc/sax/Locator.hpp>
#include <xercesc/sax/SAXParseException.hpp>
#include <xercesc/sax2/Attributes.hpp>
#include <xercesc/sax2/DefaultHandler.hpp>

#include "input.h"
#include "keys.h"
#include "options.h"
#include "places.h"
#include "plan.h"
#include "schema.h"
#include "track.h"

class ReportReader : public xercesc::DefaultHandler, public xercesc::PSVIHandler {
  public:
    ReportReader(Schema &schema, const Plan &plan, const Options &options);

    // Reads all of it. Answers VALID, or NOT_WELL_FORMED or OVER_A_LIMIT where it ended early.
    Status read(const Input &input);

    const Places &places() const { return places_; }
    const std::vector<std::unique_ptr<Track>> &tracks() const { return tracks_; }
    const std::vector<Fault> &faults() const { return faults_; } // the first ones
    size_t fault_count() const { return fault_count_; }

  private:
    void setDocumentLocator(const xercesc::Locator *const locator) override;
    void startPrefixMapping(const XMLCh *const prefix, const XMLCh *const uri) override;
    void endPrefixMapping(const XMLCh *const prefix) override;
    void startElement(const XMLCh *const uri, const XMLCh *const local, const XMLCh *const name,
                      const xercesc::Attributes &attributes) override;
    void handleAttributesPSVI(const XMLCh *const local, const XMLCh *const uri,
                              xercesc::PSVIAttributeList *attributes) override;
    void handlePartialElementPSVI(const XMLCh *const local, const XMLCh *const uri,
                                  xercesc::PSVIElement *element) override;
    void handleElementPSVI(const XMLCh *const local, const XMLCh *const uri,
                           xercesc::PSVIElement *element) override;
    void error(const xercesc::SAXParseException &e) override;
    void fatalError(const xercesc::SAXParseException &e) override;

    void note(const xercesc::SAXParseException &e);
    void note(const std::string &words);
    const KnownName &known(const XMLCh *uri, const XMLCh *local, const XMLCh *name);
    void begin(xercesc::PSVIElement *element);
    std::vector<HandedAttribute> attributes_for_tracks();
    void tell_progress();

    Schema &schema_;
    const Plan &plan_;
    const Options &options_;
    std::string file_;
    uint64_t size_ = 0, seen_ = 0;
    time_t told_ = 0; // when progress was last told, or might have been
    bool has_told_ = false;
    const xercesc::Locator *locator_ = nullptr;

    Bindings bindings_;
    Places places_;
    std::vector<std::unique_ptr<Track>> tracks_;
    std::unordered_map<std::u16string, KnownName> names_; // by qualified name and namespace
    const KnownName *name_ = nullptr;
    std::u16string wanted_; // the key of the latest look-up
    uint32_t element_ = Places::NONE;
    xercesc::PSVIAttributeList *attributes_ = nullptr;
    bool begun_ = true;
    struct Open {
        uint32_t element;
        bool nil;
    };
    std::vector<Open> open_;
    bool nil_ = false;

    std::vector<Fault> faults_;
    size_t fault_count_ = 0, fatal_count_ = 0;
};

#endif
