// What the command answers to its caller.
#ifndef ZOGRAXT_STATUS_H
#define ZOGRAXT_STATUS_H

// The exit status. Of several reports the highest one counts.
enum Status {
    VALID = 0,
    IDENTITY_FAULT = 1,  // an identity constraint reports something
    NOT_VALID = 2,       // no such report, but not valid by the schema otherwise
    NOT_WELL_FORMED = 3, // the report is no XML, or brings what is not read unless asked
    SCHEMA_REFUSED = 4,
    OVER_A_LIMIT = 5, // a part of the report is not checked, since a limit is passed
    USAGE = 64,
};

#endif
