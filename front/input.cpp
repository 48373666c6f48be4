#include "input.h"

#include <cerrno>
#include <cstdlib>
#include <cstring>
#include <fstream>
#include <iostream>
#include <iterator>

#include <sys/stat.h>

#include <xercesc/framework/LocalFileInputSource.hpp>
#include <xercesc/framework/MemBufInputSource.hpp>
#include <xercesc/framework/XMLErrorCodes.hpp>
#include <xercesc/util/TransService.hpp>
#include <xercesc/util/XMLString.hpp>
#include <xercesc/util/XMLUni.hpp>

#include "texts.h"

using namespace xercesc;
using std::string;

// ---- an input as a whole

static InputSource *of_memory(const string &bytes, const string &name) {
    auto *source = new MemBufInputSource(reinterpret_cast<const XMLByte *>(bytes.data()),
                                         bytes.size(), name.c_str());
    source->setCopyBufToStream(false);
    return source;
}

static InputSource *of_file(const string &name) {
    // A name is bytes; as UTF-8 where it is that, else by the locale of the program.
    TranscodeFromStr text(reinterpret_cast<const XMLByte *>(name.data()), name.size(), "UTF-8");
    return new LocalFileInputSource(text.str());
}

Input::Input(const string &name) : name_(name) {
    struct stat about;
    bool standard = name == "-";
    if (!standard && stat(name.c_str(), &about) != 0)
        throw Refusal(USAGE, string("can't be read: ") + strerror(errno));
    if (!standard && S_ISDIR(about.st_mode)) throw Refusal(USAGE, "is a folder");
    if (!standard && S_ISREG(about.st_mode)) {
        if (!std::ifstream(name)) throw Refusal(USAGE, string("can't be read: ") + strerror(errno));
        size_ = uint64_t(about.st_size);
        source_.reset(of_file(name));
        return;
    }
    std::ifstream pipe;
    if (!standard) pipe.open(name, std::ios::binary);
    std::istream &in = standard ? std::cin : pipe;
    held_.assign(std::istreambuf_iterator<char>(in), std::istreambuf_iterator<char>());
    size_ = held_.size();
    source_.reset(of_memory(held_, name));
}

// ---- what a schema or a report names

// The schema of xml:lang and its like, which schemas import by an address on the network.
static const char XML_NAMESPACE[] = "http://www.w3.org/XML/1998/namespace";
static const string XML_SCHEMA =
    "<xs:schema xmlns:xs='http://www.w3.org/2001/XMLSchema'"
    " targetNamespace='http://www.w3.org/XML/1998/namespace'>"
    "<xs:attribute name='lang'><xs:simpleType><xs:union memberTypes='xs:language'><xs:simpleType>"
    "<xs:restriction base='xs:string'><xs:enumeration value=''/></xs:restriction>"
    "</xs:simpleType></xs:union></xs:simpleType></xs:attribute>"
    "<xs:attribute name='space'><xs:simpleType><xs:restriction base='xs:NCName'>"
    "<xs:enumeration value='default'/><xs:enumeration value='preserve'/></xs:restriction>"
    "</xs:simpleType></xs:attribute>"
    "<xs:attribute name='base' type='xs:anyURI'/><xs:attribute name='id' type='xs:ID'/>"
    "<xs:attributeGroup name='specialAttrs'><xs:attribute ref='xml:base'/>"
    "<xs:attribute ref='xml:lang'/><xs:attribute ref='xml:space'/><xs:attribute ref='xml:id'/>"
    "</xs:attributeGroup></xs:schema>";

// Without `file:` and with its escapes undone.
static string plain_file(const string &address) {
    string path = address, out;
    if (path.compare(0, 16, "file://localhost") == 0) path = path.substr(16);
    else if (path.compare(0, 7, "file://") == 0) path = path.substr(7);
    else if (path.compare(0, 5, "file:") == 0) path = path.substr(5);
    else return path;
    for (size_t i = 0; i < path.size(); ++i) {
        if (path[i] == '%' && i + 2 < path.size() && isxdigit(uint8_t(path[i + 1])) &&
            isxdigit(uint8_t(path[i + 2]))) {
            out.push_back(char(strtol(path.substr(i + 1, 2).c_str(), nullptr, 16)));
            i += 2;
        } else {
            out.push_back(path[i]);
        }
    }
    return out;
}

// `http:` and its like; one letter before the colon is no scheme that anybody reads.
static bool has_scheme(const string &address) {
    size_t colon = address.find(':');
    if (colon == string::npos || address.compare(0, 5, "file:") == 0) return false;
    for (size_t i = 0; i < colon; ++i)
        if (!isalnum(uint8_t(address[i])) && !strchr("+-.", address[i])) return false;
    return colon > 0;
}

static string below(const string &base, const string &address) {
    string path = plain_file(address);
    if (!path.empty() && path[0] == '/') return path;
    size_t slash = plain_file(base).rfind('/');
    return slash == string::npos ? path : plain_file(base).substr(0, slash + 1) + path;
}

static string not_from_network(const string &address) {
    return "'" + address + "' is not read from the network: keep a copy beside the schema and "
           "name that in its place";
}

InputSource *BoundedReader::Doorkeeper::resolveEntity(XMLResourceIdentifier *what) {
    string address = utf8(what->getSystemId()), base = utf8(what->getBaseURI());
    bool schema = what->getResourceIdentifierType() <= XMLResourceIdentifier::SchemaRedefine;
    if (schema && utf8(what->getNameSpace()) == XML_NAMESPACE && has_scheme(address))
        return of_memory(XML_SCHEMA, address);
    if (!schema && !entities)
        throw Refusal(NOT_WELL_FORMED, "the external entity or DTD '" + address +
                                           "' is not read: --entities reads local ones");
    if (has_scheme(address))
        throw Refusal(schema ? SCHEMA_REFUSED : NOT_WELL_FORMED, not_from_network(address));
    if (has_scheme(base)) base.clear();
    string path = below(base, address);
    if (schema && reader->on_schema_file) reader->on_schema_file(path);
    return of_file(path);
}

// ---- a reader with bounds

void BoundedReader::Doorkeeper::internalEntityDecl(const XMLCh *const name,
                                                   const XMLCh *const value) {
    if (XMLString::stringLen(value) > ENTITY_LENGTH)
        throw Refusal(OVER_A_LIMIT, "the entity '" + utf8(name) + "' is longer than " +
                                        std::to_string(ENTITY_LENGTH) +
                                        " characters: write its text where it belongs");
}

void BoundedReader::error(const unsigned int code, const XMLCh *const domain, const ErrTypes type,
                          const XMLCh *const text, const XMLCh *const system_id,
                          const XMLCh *const public_id, const XMLFileLoc line,
                          const XMLFileLoc column) {
    if (code == XMLErrs::EntityExpansionLimitExceeded &&
        XMLString::equals(domain, XMLUni::fgXMLErrDomain))
        over_entities = true;
    SAX2XMLReaderImpl::error(code, domain, type, text, system_id, public_id, line, column);
}

BoundedReader::BoundedReader(XMLGrammarPool *pool, bool entities)
    : SAX2XMLReaderImpl(XMLPlatformUtils::fgMemoryManager, pool) {
    doorkeeper_.reader = this;
    doorkeeper_.entities = entities;
    setFeature(XMLUni::fgSAX2CoreNameSpaces, true);
    setFeature(XMLUni::fgXercesDynamic, false);
    setFeature(XMLUni::fgXercesLoadExternalDTD, entities);
    setFeature(XMLUni::fgXercesDisableDefaultEntityResolution, true);
    setXMLEntityResolver(&doorkeeper_);
    setDeclarationHandler(&doorkeeper_);
    bounds_.setEntityExpansionLimit(ENTITY_EXPANSIONS);
    setProperty(XMLUni::fgXercesSecurityManager, &bounds_);
}
