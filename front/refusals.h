// The library's refusals, each as a sentence that says what to do.
#ifndef ZOGRAXT_REFUSALS_H
#define ZOGRAXT_REFUSALS_H

#include <cstdint>
#include <string>

std::string refusal_words(uint32_t number);

#endif
