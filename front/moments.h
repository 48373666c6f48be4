// Dates, times and durations by value: one text for all spellings of a value.
#ifndef ZOGRAXT_MOMENTS_H
#define ZOGRAXT_MOMENTS_H

#include <string>

// Of a valid text of the primitive type named: dateTime, date, time, gYearMonth, gYear, gMonthDay,
// gDay or gMonth. With a time zone the value is the instant at which it begins, and the text ends
// in Z; without one it is another value, and stays as it is.
std::string moment_text(const std::string &type, const std::string &value);

// Of a valid duration: its months and its seconds, `14;90.5`. P1Y and P12M are one value, P1M and
// P30D are two.
std::string duration_text(const std::string &value);

// Of a valid decimal: no sign but `-`, no zeros that could be left out.
std::string decimal_text(const std::string &value);

#endif
