// Reading XML from outside: which files are opened, and what hostile input may not do.
//
// No network is ever asked. A report's external entities and DTD are read only with --entities,
// and only from local files. Of entities at most ENTITY_EXPANSIONS are put in, none of over
// ENTITY_LENGTH characters: so that no report grows by more than some forty megabytes. Elements
// stand at most ELEMENT_DEPTH deep, since Xerces-C takes longer at each the deeper it stands.
#ifndef ZOGRAXT_INPUT_H
#define ZOGRAXT_INPUT_H

#include <cstdint>
#include <functional>
#include <memory>
#include <string>
#include <vector>

#include <xercesc/framework/XMLGrammarPool.hpp>
#include <xercesc/parsers/SAX2XMLReaderImpl.hpp>
#include <xercesc/sax/InputSource.hpp>
#include <xercesc/sax/SAXException.hpp>
#include <xercesc/sax2/DefaultHandler.hpp>
#include <xercesc/util/SecurityManager.hpp>
#include <xercesc/util/XMLEntityResolver.hpp>

#include "status.h"

const size_t ENTITY_EXPANSIONS = 10000;
const size_t ENTITY_LENGTH = 4096;
const size_t ELEMENT_DEPTH = 5000;

// Something to be told, with its place in a file; line 0 is no line.
struct Fault {
    std::string file;
    uint64_t line = 0, column = 0;
    std::string words;
};

// Thrown to end a reading at once. Xerces-C lets it through.
struct Refusal : xercesc::SAXException {
    Refusal(Status status, const std::string &words) : status(status), words(words) {}
    Status status;
    std::string words;
};

// An input as a whole: a file, or standard input, which is kept in memory.
class Input {
  public:
    // Throws Refusal where it can't be opened.
    explicit Input(const std::string &name);
    const std::string &name() const { return name_; }
    uint64_t size() const { return size_; }
    const xercesc::InputSource &source() const { return *source_; }

  private:
    std::string name_, held_; // held: the bytes of what is no plain file
    uint64_t size_ = 0;
    std::unique_ptr<xercesc::InputSource> source_;
};

// A reader of Xerces-C with these bounds.
class BoundedReader : public xercesc::SAX2XMLReaderImpl {
  public:
    BoundedReader(xercesc::XMLGrammarPool *pool, bool entities);

    bool over_entities = false; // the last reading ended for too many entities

    // Called with each file that a schema includes, before it is opened.
    std::function<void(const std::string &)> on_schema_file;

  private:
    // What may be opened, and how long an entity may be.
    struct Doorkeeper : xercesc::XMLEntityResolver, xercesc::DefaultHandler {
        xercesc::InputSource *resolveEntity(xercesc::XMLResourceIdentifier *what) override;
        void internalEntityDecl(const XMLCh *const name, const XMLCh *const value) override;
        using xercesc::DefaultHandler::resolveEntity;
        BoundedReader *reader = nullptr;
        bool entities = false;
    };

    void error(const unsigned int code, const XMLCh *const domain, const ErrTypes type,
               const XMLCh *const text, const XMLCh *const system_id, const XMLCh *const public_id,
               const XMLFileLoc line, const XMLFileLoc column) override;

    Doorkeeper doorkeeper_;
    xercesc::SecurityManager bounds_;
};

#endif
