#include "reader.h"

#include <iostream>

#include <xercesc/framework/psvi/PSVIAttribute.hpp>
#include <xercesc/framework/psvi/XSElementDeclaration.hpp>
#include <xercesc/util/OutOfMemoryException.hpp>
#include <xercesc/util/XMLString.hpp>
#include <xercesc/util/XMLUni.hpp>
#include <xercesc/validators/schema/SchemaSymbols.hpp>

#include "identity.h"
#include "texts.h"

using namespace xercesc;
using std::string;
using std::vector;

ReportReader::ReportReader(Schema &schema, const Plan &plan, const Options &options)
    : schema_(schema), plan_(plan), options_(options) {
    for (const Part &part : plan.parts)
        tracks_.push_back(std::make_unique<Track>(part, tracks_.size(), options.all));
}

Status ReportReader::read(const Input &input) {
    file_ = input.name();
    size_ = input.size();
    BoundedReader &reader = schema_.reader_for_report();
    reader.setContentHandler(this);
    reader.setPSVIHandler(this);
    reader.setErrorHandler(this);
    Status status = VALID;
    try {
        reader.parse(input.source());
    } catch (const Refusal &e) {
        note(e.words);
        status = e.status;
    } catch (const XMLException &e) {
        note(utf8(e.getMessage()));
        status = NOT_WELL_FORMED;
    } catch (const SAXException &e) {
        note(utf8(e.getMessage()));
        status = NOT_WELL_FORMED;
    } catch (const OutOfMemoryException &) {
        note("the system gives too little memory");
        status = OVER_A_LIMIT;
    }
    if (has_told_) std::cerr << '\n';
    if (status == VALID && fatal_count_ > 0)
        status = reader.over_entities ? OVER_A_LIMIT : NOT_WELL_FORMED;
    for (auto &track : tracks_)
        if (status == VALID) track->finish();
        else track->break_off();
    reader.setContentHandler(nullptr);
    reader.setPSVIHandler(nullptr);
    reader.setErrorHandler(nullptr);
    return status;
}

// ---- what is wrong besides

void ReportReader::note(const SAXParseException &e) {
    ++fault_count_;
    if (faults_.size() < options_.most)
        faults_.push_back({file_, e.getLineNumber(), e.getColumnNumber(), utf8(e.getMessage())});
}

// The reading has ended, and with it the locator: the place is the last element's.
void ReportReader::note(const string &words) {
    ++fault_count_;
    faults_.push_back({file_, places_.line(element_), places_.column(element_), words});
}

void ReportReader::error(const SAXParseException &e) { note(e); }

void ReportReader::fatalError(const SAXParseException &e) {
    ++fatal_count_;
    note(e);
}

void ReportReader::tell_progress() {
    time_t now = time(nullptr);
    if (now == told_ || size_ == 0) return;
    if (told_ != 0)
        std::cerr << '\r' << file_ << ": " << 100 * schema_.reader().getSrcOffset() / size_
                  << " %, " << seen_ << " elements " << std::flush;
    has_told_ = told_ != 0;
    told_ = now;
}

// ---- elements

void ReportReader::setDocumentLocator(const Locator *const locator) { locator_ = locator; }

void ReportReader::startPrefixMapping(const XMLCh *const prefix, const XMLCh *const uri) {
    bindings_.bind(utf8(prefix), utf8(uri));
}

void ReportReader::endPrefixMapping(const XMLCh *const prefix) { bindings_.release(utf8(prefix)); }

static bool is_true(const XMLCh *text) {
    if (!text) return false;
    string value = utf8(text);
    size_t from = value.find_first_not_of(" \t\r\n");
    if (from == string::npos) return false;
    value = value.substr(from, value.find_last_not_of(" \t\r\n") + 1 - from);
    return value == "true" || value == "1";
}

const KnownName &ReportReader::known(const XMLCh *uri, const XMLCh *local, const XMLCh *name) {
    wanted_.assign(name);
    wanted_.push_back(u' ');
    wanted_.append(uri);
    auto found = names_.find(wanted_);
    if (found != names_.end()) return found->second;
    KnownName made;
    string handed_in = plan_.names.element_name(utf8(local));
    made.space_text = plan_.names.space_text(utf8(uri));
    made.handed_in = plan_.names.raw() ? utf8(name) : handed_in;
    made.number = places_.number_of(utf8(name));
    Record start = start_record(made, {}, {});
    made.start = start.bytes();
    made.over = start.over();
    for (const Part &part : plan_.parts) {
        made.step.push_back(part.reach.steps.has(made.space_text, handed_in));
        made.value.push_back(part.reach.values.has(made.space_text, handed_in));
    }
    return names_.emplace(wanted_, std::move(made)).first->second;
}

void ReportReader::startElement(const XMLCh *const uri, const XMLCh *const local,
                                const XMLCh *const name, const Attributes &attributes) {
    name_ = &known(uri, local, name);
    element_ = places_.open(name_->number, locator_->getLineNumber(), locator_->getColumnNumber());
    if (places_.depth() > ELEMENT_DEPTH)
        throw Refusal(OVER_A_LIMIT, "elements stand over " + std::to_string(ELEMENT_DEPTH) +
                                        " deep: no report needs that");
    nil_ = attributes.getLength() > 0 &&
           is_true(attributes.getValue(SchemaSymbols::fgURI_XSI, SchemaSymbols::fgATT_NILL));
    attributes_ = nullptr;
    begun_ = false;
    ++seen_;
    if (options_.progress && seen_ % 4096 == 0) tell_progress();
}

void ReportReader::handleAttributesPSVI(const XMLCh *const, const XMLCh *const,
                                        PSVIAttributeList *attributes) {
    attributes_ = attributes;
}

vector<HandedAttribute> ReportReader::attributes_for_tracks() {
    vector<HandedAttribute> out;
    for (XMLSize_t i = 0; attributes_ && i < attributes_->getLength(); ++i) {
        string uri = utf8(attributes_->getAttributeNamespaceAtIndex(i));
        if (XMLString::equals(attributes_->getAttributeNamespaceAtIndex(i), XMLUni::fgXMLNSURIName))
            continue;
        string local = utf8(attributes_->getAttributeNameAtIndex(i));
        string name = plan_.names.attribute_name(uri, local);
        bool reached = false;
        for (const auto &track : tracks_)
            reached = reached || track->part().reach.has_attribute(uri, name);
        if (!reached) continue;
        PSVIAttribute *attribute = attributes_->getAttributePSVIAtIndex(i);
        XSSimpleTypeDefinition *type = simple_type(attribute->getTypeDefinition());
        out.push_back({uri, name, key_of(attribute, type, bindings_)});
    }
    return out;
}

// The declaration is known: the element goes to each session that has a scope open, or opens one.
void ReportReader::begin(PSVIElement *element) {
    begun_ = true;
    open_.push_back({element_, nil_});
    const vector<int> &places = schema_.on(element->getElementDeclaration());
    vector<HandedAttribute> attributes;
    bool known = false;
    for (auto &track : tracks_) {
        vector<unsigned> numbers = track->numbers_of(places);
        if (numbers.empty() && !track->is_within()) continue;
        if (!known) attributes = attributes_for_tracks();
        known = true;
        track->start(element_, *name_, numbers, attributes);
    }
}

void ReportReader::handlePartialElementPSVI(const XMLCh *const, const XMLCh *const,
                                            PSVIElement *element) {
    begin(element);
}

// The simple byte of an EE. A nillable element counts as any other, but not as a field of a key.
static unsigned simple_byte(PSVIElement *element, XSSimpleTypeDefinition *type, bool nil) {
    if (!type || nil) return IDENTITY_NOT_SIMPLE;
    XSElementDeclaration *declaration = element->getElementDeclaration();
    bool nillable = declaration && declaration->getNillable();
    return nillable ? IDENTITY_SIMPLE_NILLABLE : IDENTITY_SIMPLE;
}

void ReportReader::handleElementPSVI(const XMLCh *const, const XMLCh *const,
                                     PSVIElement *element) {
    if (!begun_) begin(element);
    Open ended = open_.back();
    open_.pop_back();
    places_.close();
    XSSimpleTypeDefinition *type = simple_type(element->getTypeDefinition());
    unsigned simple = simple_byte(element, type, ended.nil);
    string key;
    bool known = false;
    for (auto &track : tracks_) {
        if (!track->is_within()) continue;
        if (simple && track->wants_value() && !known) {
            key = key_of(element, type, bindings_);
            known = true;
        }
        track->end(simple, simple && track->wants_value() ? key : string());
    }
}
