// The verdict of Xerces-C's own identity checking, for the tests: xerces_check SCHEMA.xsd REPORT.xml
// prints each error and ends with 0 for none, 1 for some, 4 where the schema is not taken.
#include <iostream>

#include <xercesc/framework/XMLGrammarPoolImpl.hpp>
#include <xercesc/parsers/SAX2XMLReaderImpl.hpp>
#include <xercesc/sax/SAXParseException.hpp>
#include <xercesc/sax2/DefaultHandler.hpp>
#include <xercesc/util/XMLString.hpp>
#include <xercesc/util/XMLUni.hpp>
#include <xercesc/validators/common/Grammar.hpp>

using namespace xercesc;

struct Errors : DefaultHandler {
    void say(const SAXParseException &e) {
        ++count;
        char *text = XMLString::transcode(e.getMessage());
        std::cout << e.getLineNumber() << ": " << text << "\n";
        XMLString::release(&text);
    }
    void error(const SAXParseException &e) override { say(e); }
    void fatalError(const SAXParseException &e) override { say(e); }
    int count = 0;
};

static int check(const char *schema, const char *report) {
    XMLGrammarPoolImpl pool(XMLPlatformUtils::fgMemoryManager);
    SAX2XMLReaderImpl reader(XMLPlatformUtils::fgMemoryManager, &pool);
    Errors errors;
    reader.setFeature(XMLUni::fgSAX2CoreValidation, true);
    reader.setFeature(XMLUni::fgXercesDynamic, false);
    reader.setFeature(XMLUni::fgXercesSchema, true);
    reader.setFeature(XMLUni::fgXercesSchemaFullChecking, true);
    reader.setFeature(XMLUni::fgXercesIdentityConstraintChecking, true);
    reader.setErrorHandler(&errors);
    if (!reader.loadGrammar(schema, Grammar::SchemaGrammarType, true) || errors.count > 0) return 4;
    reader.setFeature(XMLUni::fgXercesUseCachedGrammarInParse, true);
    reader.setFeature(XMLUni::fgXercesLoadSchema, false);
    reader.parse(report);
    return errors.count > 0;
}

int main(int count, char **words) {
    if (count != 3) return 64;
    XMLPlatformUtils::Initialize();
    int status = 4;
    try {
        status = check(words[1], words[2]);
    } catch (const XMLException &) {
    } catch (const SAXException &) {
        status = 1;
    }
    XMLPlatformUtils::Terminate();
    return status;
}
