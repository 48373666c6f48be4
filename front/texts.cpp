#include "texts.h"

#include <cstdint>
#include <cstdio>

#include <openssl/sha.h>

using std::string;

static bool is_high(uint32_t unit) { return unit >= 0xD800 && unit < 0xDC00; }
static bool is_low(uint32_t unit) { return unit >= 0xDC00 && unit < 0xE000; }

static void append_character(uint32_t c, string &out) {
    if (c < 0x80) {
        out.push_back(char(c));
    } else if (c < 0x800) {
        out.push_back(char(0xC0 | c >> 6));
        out.push_back(char(0x80 | (c & 63)));
    } else {
        if (c < 0x10000) {
            out.push_back(char(0xE0 | c >> 12));
        } else {
            out.push_back(char(0xF0 | c >> 18));
            out.push_back(char(0x80 | (c >> 12 & 63)));
        }
        out.push_back(char(0x80 | (c >> 6 & 63)));
        out.push_back(char(0x80 | (c & 63)));
    }
}

// Half a pair, which no well-formed document has, becomes U+FFFD: the library takes UTF-8 alone.
void append_utf8(const XMLCh *text, string &out) {
    if (!text) return;
    for (; *text; ++text) {
        uint32_t c = *text;
        if (is_high(c) && is_low(text[1])) {
            c = 0x10000 + ((c - 0xD800) << 10) + (uint32_t(text[1]) - 0xDC00);
            ++text;
        } else if (is_high(c) || is_low(c)) {
            c = 0xFFFD;
        }
        append_character(c, out);
    }
}

string utf8(const XMLCh *text) {
    string out;
    append_utf8(text, out);
    return out;
}

string digest(const string &bytes) {
    unsigned char sum[SHA256_DIGEST_LENGTH];
    SHA256(reinterpret_cast<const unsigned char *>(bytes.data()), bytes.size(), sum);
    string out;
    for (unsigned char b : sum) {
        char two[3];
        snprintf(two, sizeof two, "%02x", b);
        out += two;
    }
    return out;
}

string front_of(const string &text, size_t most) {
    if (text.size() <= most) return text;
    while (most > 0 && (uint8_t(text[most]) & 0xC0) == 0x80) --most;
    return text.substr(0, most);
}

string on_a_line(const string &text) {
    string out = text;
    for (char &c : out)
        if (uint8_t(c) < 32 || c == 127) c = ' ';
    return out;
}

// The bytes of the character at a place; 0 where none is well formed there.
static size_t character_size(const string &text, size_t at) {
    uint8_t lead = uint8_t(text[at]);
    size_t size = lead < 0x80 ? 1 : lead < 0xC2 ? 0 : lead < 0xE0 ? 2 : lead < 0xF0 ? 3 : 4;
    if (lead > 0xF4 || at + size > text.size()) return 0;
    for (size_t i = 1; i < size; ++i)
        if ((uint8_t(text[at + i]) & 0xC0) != 0x80) return 0;
    return size;
}

string json_text(const string &text) {
    string out = "\"";
    for (size_t at = 0; at < text.size();) {
        char c = text[at];
        size_t size = character_size(text, at);
        char escaped[8];
        if (c == '"' || c == '\\') {
            out += '\\';
            out += c;
        } else if (uint8_t(c) < 32) {
            snprintf(escaped, sizeof escaped, "\\u%04x", unsigned(uint8_t(c)));
            out += escaped;
        } else if (size == 0) {
            out += '?';
        } else {
            out.append(text, at, size);
        }
        at += size == 0 ? 1 : size;
    }
    return out + "\"";
}
