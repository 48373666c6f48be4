#include "records.h"

using std::string;

void append_text(string &bytes, const string &text) {
    bytes.push_back(char(text.size() & 255));
    bytes.push_back(char(text.size() >> 8 & 255));
    bytes += text;
}

void Record::text(const string &text, size_t most, const char *what) {
    if (!over_.empty()) return;
    if (text.size() > most)
        over_ = string(what) + " has " + std::to_string(text.size()) + " bytes, and " +
                std::to_string(most) + " is the most";
    else append_text(bytes_, text);
}

void Record::count(size_t number, size_t most, const char *what) {
    if (!over_.empty()) return;
    if (number > most)
        over_ = "it has " + std::to_string(number) + " " + what + ", and " + std::to_string(most) +
                " is the most";
    else byte(unsigned(number));
}

void Record::close() {
    size_t body = bytes_.size() - 4;
    if (over_.empty() && body > BODY_MOST)
        over_ = "its record has " + std::to_string(body) + " bytes, and " +
                std::to_string(BODY_MOST) + " is the most";
    bytes_[2] = char(body & 255);
    bytes_[3] = char(body >> 8 & 255);
}
