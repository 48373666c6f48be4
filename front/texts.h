// Texts: from Xerces-C's UTF-16 to UTF-8, and for the eye.
#ifndef ZOGRAXT_TEXTS_H
#define ZOGRAXT_TEXTS_H

#include <string>

#include <xercesc/util/XercesDefs.hpp>

void append_utf8(const XMLCh *text, std::string &out); // nothing for a null pointer
std::string utf8(const XMLCh *text);

// SHA-256, in hexadecimal digits.
std::string digest(const std::string &bytes);

// The longest front of at most `most` bytes that does not end inside a character.
std::string front_of(const std::string &text, size_t most);

// With a space for each control character, for a line on a terminal.
std::string on_a_line(const std::string &text);

// As a JSON string, in its quotes; a byte that is no UTF-8, of a file's name, becomes `?`.
std::string json_text(const std::string &text);

#endif
