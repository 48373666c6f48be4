// The paths of one schema file, put to the proved checker where they stand.
#ifndef ZOGRAXT_SCHEMA_PATHS_H
#define ZOGRAXT_SCHEMA_PATHS_H

#include <string>
#include <vector>

#include "input.h"

// Adds a fault for each path that the checker turns back, and one where the file is no XML.
// Throws Refusal where it goes over a bound of input.h.
void check_schema_paths(const std::string &file, std::vector<Fault> &faults);

#endif
