#include "keys.h"

#include <charconv>
#include <cmath>
#include <limits>
#include <map>

#include <xercesc/framework/psvi/XSComplexTypeDefinition.hpp>
#include <xercesc/util/PlatformUtils.hpp>
#include <xercesc/util/TransService.hpp>
#include <xercesc/util/XMLException.hpp>
#include <xercesc/util/XMLString.hpp>
#include <xercesc/validators/datatype/DatatypeValidator.hpp>

#include "moments.h"
#include "records.h"
#include "texts.h"

using namespace xercesc;
using std::string;
using std::vector;

string Bindings::uri_of(const string &prefix) const {
    if (prefix == "xml") return "http://www.w3.org/XML/1998/namespace";
    auto found = bound_.find(prefix);
    return found == bound_.end() || found->second.empty() ? "" : found->second.back();
}

XSSimpleTypeDefinition *simple_type(XSTypeDefinition *type) {
    if (!type) return nullptr;
    if (type->getTypeCategory() == XSTypeDefinition::SIMPLE_TYPE)
        return static_cast<XSSimpleTypeDefinition *>(type);
    auto *complex = static_cast<XSComplexTypeDefinition *>(type);
    if (complex->getContentType() != XSComplexTypeDefinition::CONTENTTYPE_SIMPLE) return nullptr;
    return complex->getSimpleType();
}

// ---- values of one primitive type

template <typename Number> static string float_text(const string &value) {
    if (value == "NaN" || value == "INF" || value == "-INF") return value;
    const char *from = value.data() + (value[0] == '+'), *end = value.data() + value.size();
    Number number = 0;
    auto read = std::from_chars(from, end, number);
    if (read.ec == std::errc::result_out_of_range) {
        // from_chars leaves the number as it was: too great, or too small to be told from 0.
        size_t e = value.find_first_of("eE");
        bool small = e != string::npos && value.find('-', e) != string::npos;
        if (!small) return value[0] == '-' ? "-INF" : "INF";
    }
    if (number == 0) return "0"; // there is one zero
    char out[64];
    return string(out, std::to_chars(out, out + sizeof out, number).ptr);
}

static string qname_text(const string &value, const Bindings &bindings) {
    size_t colon = value.find(':');
    string prefix = colon == string::npos ? "" : value.substr(0, colon);
    string local = colon == string::npos ? value : value.substr(colon + 1);
    return "{" + bindings.uri_of(prefix) + "}" + local;
}

static string boolean_text(const string &value) {
    return value == "1" || value == "true" ? "true" : "false";
}

static string upper(const string &value) {
    string out = value;
    for (char &c : out)
        if (c >= 'a' && c <= 'f') c = char(c - 32);
    return out;
}

static string without_spaces(const string &value) {
    string out;
    for (char c : value)
        if (c != ' ') out += c;
    return out;
}

// The letters of the primitive types. Those of one letter are one type.
static const std::map<string, char> LETTERS = {
    {"string", 's'},     {"boolean", 'b'},   {"decimal", 'n'},      {"float", 'f'},
    {"double", 'd'},     {"duration", 'P'},  {"dateTime", 'T'},     {"time", 't'},
    {"date", 'D'},       {"gYear", 'Y'},     {"gYearMonth", 'y'},   {"gMonth", 'M'},
    {"gMonthDay", 'm'},  {"gDay", 'g'},      {"hexBinary", 'h'},    {"base64Binary", 'B'},
    {"anyURI", 'u'},     {"QName", 'q'},     {"NOTATION", 'N'},
};

static string atomic_key(const string &primitive, const string &value, const Bindings &bindings) {
    auto found = LETTERS.find(primitive);
    char letter = found == LETTERS.end() ? 's' : found->second;
    string text = value;
    switch (letter) {
    case 'b': text = boolean_text(value); break;
    case 'n': text = decimal_text(value); break;
    case 'f': text = float_text<float>(value); break;
    case 'd': text = float_text<double>(value); break;
    case 'P': text = duration_text(value); break;
    case 'h': text = upper(value); break;
    case 'B': text = without_spaces(value); break;
    case 'q':
    case 'N': text = qname_text(value, bindings); break;
    case 's':
    case 'u': break;
    default: text = moment_text(primitive, value);
    }
    return letter + text;
}

// ---- lists and unions

// The validator behind a simple type, which tells a union's members apart.
struct BehindType : XSSimpleTypeDefinition {
    static DatatypeValidator *XSSimpleTypeDefinition::*validator() {
        return &BehindType::fDatatypeValidator;
    }
};

static bool takes(XSSimpleTypeDefinition *type, const string &value) {
    DatatypeValidator *validator = type->*BehindType::validator();
    if (!validator) return true;
    TranscodeFromStr text(reinterpret_cast<const XMLByte *>(value.data()), value.size(), "UTF-8");
    try {
        validator->validate(text.str(), nullptr, XMLPlatformUtils::fgMemoryManager);
    } catch (const XMLException &) {
        return false;
    }
    return true;
}

static string typed_key(XSSimpleTypeDefinition *type, const string &value,
                        const Bindings &bindings);

static string list_key(XSSimpleTypeDefinition *item, const string &value,
                       const Bindings &bindings) {
    string out = "L";
    for (size_t at = 0; at < value.size();) {
        size_t end = value.find(' ', at);
        if (end == string::npos) end = value.size();
        if (end > at) {
            string key = typed_key(item, value.substr(at, end - at), bindings);
            out += std::to_string(key.size()) + ":" + key;
        }
        at = end + 1;
    }
    return out;
}

static string union_key(XSSimpleTypeDefinition *type, const string &value,
                        const Bindings &bindings) {
    XSSimpleTypeDefinitionList *members = type->getMemberTypes();
    for (XMLSize_t i = 0; members && i < members->size(); ++i)
        if (takes(members->elementAt(i), value))
            return typed_key(members->elementAt(i), value, bindings);
    return "s" + value;
}

static string typed_key(XSSimpleTypeDefinition *type, const string &value,
                        const Bindings &bindings) {
    switch (type->getVariety()) {
    case XSSimpleTypeDefinition::VARIETY_LIST:
        return list_key(type->getItemType(), value, bindings);
    case XSSimpleTypeDefinition::VARIETY_UNION: return union_key(type, value, bindings);
    case XSSimpleTypeDefinition::VARIETY_ATOMIC: break;
    default: return "s" + value; // anySimpleType has no value but its text
    }
    XSSimpleTypeDefinition *primitive = type->getPrimitiveType();
    return atomic_key(utf8(primitive ? primitive->getName() : type->getName()), value, bindings);
}

// ---- keys

// A longer key: its length, the digest of it all, and its front for the eye.
static string in_limit(const string &key) {
    if (key.size() <= KEY_MOST) return key;
    string head = "#" + std::to_string(key.size()) + ":" + digest(key) + ":";
    return head + front_of(key, KEY_MOST - head.size());
}

// A value that its type does not take goes by its text: the report is not valid anyway.
string key_of(PSVIItem *item, XSSimpleTypeDefinition *type, const Bindings &bindings) {
    string value = utf8(item->getSchemaNormalizedValue());
    XSSimpleTypeDefinition *member = item->getMemberTypeDefinition();
    if (!type) return in_limit("s" + value);
    if (item->getValidity() == PSVIItem::VALIDITY_INVALID) return in_limit("!" + value);
    bool direct = type->getVariety() == XSSimpleTypeDefinition::VARIETY_UNION && member;
    return in_limit(typed_key(direct ? member : type, value, bindings));
}

string shown_key(const string &key) {
    if (key.empty()) return "";
    if (key[0] == '#') {
        size_t at = key.find(':', key.find(':') + 1);
        return shown_key(key.substr(at + 1)) + "...";
    }
    if (key[0] != 'L') return on_a_line(key.substr(1));
    string out;
    for (size_t at = 1; at < key.size();) {
        size_t colon = key.find(':', at);
        if (colon == string::npos) break;
        size_t size = size_t(strtoull(key.substr(at, colon - at).c_str(), nullptr, 10));
        out += (out.empty() ? "" : " ") + shown_key(key.substr(colon + 1, size));
        at = colon + 1 + size;
    }
    return out;
}
