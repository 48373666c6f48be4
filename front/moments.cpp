#include "moments.h"

#include <cstdint>
#include <cstdio>
#include <cstdlib>

using std::string;

// Longer numbers are no years and days that anybody counts: such a text stands for itself.
static const size_t DIGITS_MOST = 15;

string decimal_text(const string &value) {
    size_t from = value.find_first_not_of("+-0"), dot = value.find('.');
    bool minus = !value.empty() && value[0] == '-';
    if (from == string::npos) return "0";
    size_t whole_end = dot == string::npos ? value.size() : dot;
    string whole = from < whole_end ? value.substr(from, whole_end - from) : "";
    string part = dot == string::npos ? "" : value.substr(dot + 1);
    part.erase(part.find_last_not_of('0') + 1);
    if (whole.empty() && part.empty()) return "0";
    return (minus ? "-" : "") + (whole.empty() ? "0" : whole) + (part.empty() ? "" : "." + part);
}

// ---- the calendar, carried back before its time

// Days from 1970-01-01 to a day of this year, where year 0 is the one before year 1.
static int64_t days_of(int64_t year, int64_t month, int64_t day) {
    year -= month <= 2;
    int64_t era = (year >= 0 ? year : year - 399) / 400;
    int64_t of_era = year - era * 400;
    int64_t of_year = (153 * (month + (month > 2 ? -3 : 9)) + 2) / 5 + day - 1;
    return era * 146097 + of_era * 365 + of_era / 4 - of_era / 100 + of_year - 719468;
}

static string date_of(int64_t days) {
    days += 719468;
    int64_t era = (days >= 0 ? days : days - 146096) / 146097;
    int64_t of_era = days - era * 146097;
    int64_t years = (of_era - of_era / 1460 + of_era / 36524 - of_era / 146096) / 365;
    int64_t of_year = of_era - (365 * years + years / 4 - years / 100);
    int64_t shifted = (5 * of_year + 2) / 153;
    int64_t month = shifted < 10 ? shifted + 3 : shifted - 9;
    int64_t year = years + era * 400 + (month <= 2);
    if (year <= 0) --year; // the schema has no year 0
    char out[80];
    snprintf(out, sizeof out, "%s%04lld-%02lld-%02lld", year < 0 ? "-" : "",
             (long long)(year < 0 ? -year : year), (long long)month,
             (long long)(of_year - (153 * shifted + 2) / 5 + 1));
    return out;
}

// ---- moments

namespace {

struct Moment {
    int64_t year = 1972, month = 12, day = 31; // of a leap year, where the type has none
    int64_t seconds = 0;                       // since midnight, less the time zone
    string part;                               // of a second, from its dot on
    bool zoned = false;
};

} // namespace

static int64_t number_at(const string &text, size_t at, size_t size) {
    return at < text.size() ? strtoll(text.substr(at, size).c_str(), nullptr, 10) : 0;
}

// Takes a time zone off the end of the text; its seconds east.
static bool take_zone(string &text, int64_t &east) {
    size_t size = text.size();
    if (size > 1 && text[size - 1] == 'Z') {
        text.pop_back();
        return true;
    }
    if (size < 6 || text[size - 3] != ':' || (text[size - 6] != '+' && text[size - 6] != '-'))
        return false;
    east = number_at(text, size - 5, 2) * 3600 + number_at(text, size - 2, 2) * 60;
    if (text[size - 6] == '-') east = -east;
    text.erase(size - 6);
    return true;
}

static void read_time(const string &text, Moment &m) {
    m.seconds += number_at(text, 0, 2) * 3600 + number_at(text, 3, 2) * 60 + number_at(text, 6, 2);
    size_t dot = text.find('.');
    if (dot == string::npos) return;
    m.part = text.substr(dot);
    m.part.erase(m.part.find_last_not_of('0') + 1);
    if (m.part == ".") m.part.clear();
}

// `-0044-03-15`, and what is left of it where the type has no day or month.
static bool read_date(const string &text, Moment &m) {
    bool before = text[0] == '-';
    size_t from = before, end = text.find('-', from);
    string year = text.substr(from, end == string::npos ? end : end - from);
    if (year.empty() || year.size() > DIGITS_MOST) return false;
    m.year = strtoll(year.c_str(), nullptr, 10);
    if (before) m.year = 1 - m.year;
    m.month = end == string::npos ? 1 : number_at(text, end + 1, 2);
    m.day = end == string::npos || end + 4 > text.size() ? 1 : number_at(text, end + 4, 2);
    return true;
}

static bool read_moment(const string &type, string text, Moment &m) {
    int64_t east = 0;
    m.zoned = take_zone(text, east);
    m.seconds = -east;
    if (text.empty()) return false;
    if (type == "time") {
        read_time(text, m);
    } else if (type == "gMonthDay") {
        m.month = number_at(text, 2, 2);
        m.day = number_at(text, 5, 2);
    } else if (type == "gDay") {
        m.day = number_at(text, 3, 2);
    } else if (type == "gMonth") {
        m.month = number_at(text, 2, 2);
        m.day = 1;
    } else {
        size_t t = text.find('T');
        if (!read_date(text.substr(0, t), m)) return false;
        if (t != string::npos) read_time(text.substr(t + 1), m);
    }
    return true;
}

string moment_text(const string &type, const string &value) {
    Moment m;
    if (!read_moment(type, value, m)) return value;
    // Without a zone only a time of day has several spellings: 24:00:00, and zeros of a second.
    if (!m.zoned && type != "time" && type != "dateTime") return value;
    int64_t days = days_of(m.year, m.month, m.day), seconds = m.seconds;
    int64_t over = seconds >= 0 ? seconds / 86400 : -((86399 - seconds) / 86400);
    days += over;
    seconds -= over * 86400;
    char clock[32];
    snprintf(clock, sizeof clock, "%02d:%02d:%02d", int(seconds / 3600), int(seconds / 60 % 60),
             int(seconds % 60));
    string out = type == "time" ? clock : date_of(days) + "T" + clock;
    return out + m.part + (m.zoned ? "Z" : "");
}

// ---- durations

string duration_text(const string &value) {
    bool minus = !value.empty() && value[0] == '-', time = false;
    int64_t months = 0, seconds = 0;
    string number, part;
    for (char c : value.substr(minus ? 2 : 1)) {
        if ((c >= '0' && c <= '9') || c == '.') {
            number += c;
            if (number.find('.') == string::npos && number.size() > DIGITS_MOST - 6) return value;
            continue;
        }
        int64_t n = strtoll(number.c_str(), nullptr, 10);
        if (c == 'S' && number.find('.') != string::npos) part = number.substr(number.find('.'));
        if (c == 'T') time = true;
        else if (c == 'Y') months += 12 * n;
        else if (c == 'M' && !time) months += n;
        else seconds += n * (c == 'D' ? 86400 : c == 'H' ? 3600 : c == 'M' ? 60 : 1);
        number.clear();
    }
    string rest = decimal_text(std::to_string(seconds) + part);
    if (months == 0 && rest == "0") return "0;0";
    return (minus ? "-" : "") + std::to_string(months) + ";" + rest;
}
