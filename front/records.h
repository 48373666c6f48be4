// The records that the library is handed, made part by part, each part within its limit.
#ifndef ZOGRAXT_RECORDS_H
#define ZOGRAXT_RECORDS_H

#include <cstdint>
#include <string>

const size_t TEXT_MOST = 255;    // of a name, path, prefix or namespace
const size_t KEY_MOST = 126;     // of a key text
const size_t BODY_MOST = 16384;  // of a record's body
const size_t LISTED_MOST = 8;    // constraints of an element
const size_t ATTRIBUTE_MOST = 32; // attributes of an element
const size_t FIELD_MOST = 4;     // fields of a constraint
const size_t DEFINED_MOST = 32;  // constraints of a session
const size_t BOUND_MOST = 64;    // prefixes of a session
const size_t BAR_MOST = 7;       // of a path, `|`
const size_t SLASH_MOST = 16;    // of a path, `/`

// A record as it grows. Once a part is over its limit, `over` says which, and nothing is added.
class Record {
  public:
    explicit Record(const char *mark) : bytes_(mark, 2) { bytes_.append(2, '\0'); }
    void byte(unsigned value) { bytes_.push_back(char(value)); }
    void text(const std::string &text, size_t most, const char *what);
    void count(size_t number, size_t most, const char *what);

    // Appends parts that were made elsewhere.
    void parts(const std::string &bytes) { bytes_ += bytes; }

    // Writes the length; to be called once, at the end.
    void close();

    const std::string &over() const { return over_; } // empty: within all limits
    const std::string &bytes() const { return bytes_; }

  private:
    std::string bytes_, over_;
};

// A text as a part of a record, to be appended by `parts`.
void append_text(std::string &bytes, const std::string &text);

#endif
