#include "refusals.h"

#include "identity.h"

using std::string;

static const char *sentence(uint32_t number) {
    switch (number) {
    case IDENTITY_REFUSED_LIMIT:
        return "a name, key or number of parts is over a limit of the library: shorten it";
    case IDENTITY_REFUSED_DEPTH:
        return "elements stand over 64 deep below the element of a constraint: set the constraint "
               "on an element farther down, or write its paths without './/'";
    case IDENTITY_REFUSED_TUPLES:
        return "there is no room for more values: the system gives too little memory";
    case IDENTITY_REFUSED_REPORTS:
        return "there is no room for more reports: mend those that are told, and check again";
    case IDENTITY_REFUSED_DEFINITIONS:
        return "the schema has over 32 constraints or 64 prefixes for one session";
    case IDENTITY_REFUSED_EVENTS:
        return "over 1,000,000 starts and ends of elements that paths can reach: split the "
               "report, or write the paths without './/' and '*'";
    case IDENTITY_REFUSED_SCOPES:
        return "over 16 constraints are open at once: set them on elements that don't stand in "
               "each other";
    case IDENTITY_REFUSED_SELECTIONS:
        return "over 32 selected elements are open at once: let the selector take elements that "
               "don't stand in each other";
    default: return "the library refuses what it was handed: this is a fault of zograxt";
    }
}

string refusal_words(uint32_t number) {
    return string(sentence(number)) + " (refusal " + std::to_string(number) + ")";
}
