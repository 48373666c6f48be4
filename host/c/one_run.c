/*
 * Sessions from C: the run of document 01 record by record, with its reports
 * and counts, and the same ten records as one buffer in two pieces, wherever
 * it is cut. The last line is the count; the exit status is 1 where a case
 * failed.
 */
#include <stdio.h>
#include <string.h>

#include "identity.h"

#if IDENTITY_VERSION_MAJOR != 4
#error "written for version 4 of identity.h"
#endif

struct record {
    const char *bytes;
    size_t length;
};

/* A record by its bytes, without the zero that C puts behind them. */
#define RECORD(text) {text, sizeof text - 1}

/* ID key `k`, selector `r`, field `@id`; ES `t` with constraint 0; thrice ES `r` and EE; EE; FI. */
static const struct record records[] = {
    RECORD("ID\x0E\0\x01\x01\0k\0\x01\0r\x01\x03\0@id"),
    RECORD("ES\x08\0\0\0\x01\0t\x01\0\0"),
    RECORD("ES\x0E\0\0\0\x01\0r\0\x01\x02\0id\x01\0a"),
    RECORD("EE\x03\0\0\0\0"),
    RECORD("ES\x0E\0\0\0\x01\0r\0\x01\x02\0id\x01\0a"),
    RECORD("EE\x03\0\0\0\0"),
    RECORD("ES\x07\0\0\0\x01\0r\0\0"),
    RECORD("EE\x03\0\0\0\0"),
    RECORD("EE\x03\0\0\0\0"),
    RECORD("FI\0\0"),
};

#define COUNT (sizeof records / sizeof records[0])

/* event, kind, constraint, field, scope, tuple */
static const uint32_t due[2][6] = {
    {6, 4, 0, 0, 1, 1},
    {8, 3, 0, 0, 1, 0},
};

/* The stores are as long as this run needs, to the byte: an ID, a TU, two RPs. */
struct session {
    uint64_t events, running, definitions_used, tuples_used, reports_used;
    uint8_t definitions[18];
    uint8_t tuples[13];
    uint8_t reports[36];
    uint8_t paths[IDENTITY_PATHS_MIN];
    uint8_t scopes[IDENTITY_SCOPES_MIN];
    uint8_t names[IDENTITY_NAMES_MIN];
    uint8_t cells[IDENTITY_CELLS_MIN];
};

static int failed;
static int passed;

static void expect(const char *what, size_t at, uint64_t answer, uint64_t wanted)
{
    if (answer == wanted) {
        passed++;
        return;
    }
    failed++;
    printf("%s %zu: %llu, and %llu is due\n", what, at, (unsigned long long)answer,
           (unsigned long long)wanted);
}

/* ---- record by record */

static uint32_t hand_in(struct session *s, const struct record *record, size_t scopes_length)
{
    return identity_record(&s->events, &s->running, &s->definitions_used, &s->tuples_used,
                           &s->reports_used, (const uint8_t *)record->bytes, record->length,
                           s->definitions, sizeof s->definitions, s->tuples, sizeof s->tuples,
                           s->reports, sizeof s->reports, s->paths, sizeof s->paths,
                           s->scopes, scopes_length, s->names, sizeof s->names,
                           s->cells, sizeof s->cells);
}

static uint32_t four(const uint8_t *bytes)
{
    return bytes[0] | (uint32_t)bytes[1] << 8 | (uint32_t)bytes[2] << 16 | (uint32_t)bytes[3] << 24;
}

/* Kind, constraint, field index and a zero stand behind the mark; then scope, event, tuple. */
static void expect_report(const struct session *s, size_t at)
{
    const uint8_t *report = s->reports + 18 * at;
    const uint32_t found[6] = {four(report + 10), report[2], report[3], report[4],
                               four(report + 6), four(report + 14)};
    expect("mark of report", at + 1, report[0] == 'R' && report[1] == 'P', 1);
    for (size_t i = 0; i < 6; i++)
        expect("number of report", at + 1, found[i], due[at][i]);
}

static void run_by_records(struct session *s)
{
    expect("a scope list too short", 0, hand_in(s, &records[0], sizeof s->scopes - 1),
           IDENTITY_REFUSED_UNFIT);
    for (size_t i = 0; i < COUNT; i++)
        expect("record", i + 1, hand_in(s, &records[i], sizeof s->scopes), IDENTITY_TAKEN);
    expect("a record after FI", 0, hand_in(s, &records[1], sizeof s->scopes),
           IDENTITY_REFUSED_PLACE);

    expect("events", 0, s->events, COUNT);
    expect("used of definitions", 0, s->definitions_used, sizeof s->definitions);
    expect("used of tuples", 0, s->tuples_used, sizeof s->tuples);
    expect("used of reports", 0, s->reports_used, sizeof s->reports);
    expect_report(s, 0);
    expect_report(s, 1);

    uint64_t start, size;
    identity_tuple_field(s->tuples_used, s->tuples, sizeof s->tuples, 1, 0, &start, &size);
    expect("start of TU", 1, start, 12);
    expect("size of TU", 1, size, 1);
    expect("byte of TU", 1, s->tuples[start], 'a');
    identity_tuple_field(s->tuples_used, s->tuples, sizeof s->tuples, 2, 0, &start, &size);
    expect("start of TU", 2, start, 0);
    expect("size of TU", 2, size, 0);
}

/* ---- over a buffer */

static uint32_t run_over(struct session *s, const uint8_t *buffer, size_t length, uint64_t *taken)
{
    return identity_run(&s->events, &s->running, &s->definitions_used, &s->tuples_used,
                        &s->reports_used, buffer, length,
                        s->definitions, sizeof s->definitions, s->tuples, sizeof s->tuples,
                        s->reports, sizeof s->reports, s->paths, sizeof s->paths,
                        s->scopes, sizeof s->scopes, s->names, sizeof s->names,
                        s->cells, sizeof s->cells, taken);
}

/* All records one behind the other. */
static size_t join(uint8_t *buffer)
{
    size_t length = 0;
    for (size_t i = 0; i < COUNT; i++) {
        memcpy(buffer + length, records[i].bytes, records[i].length);
        length += records[i].length;
    }
    return length;
}

/* The bytes of the records that are whole in so many bytes of the buffer. */
static size_t whole_in(size_t length)
{
    size_t whole = 0;
    for (size_t i = 0; i < COUNT && whole + records[i].length <= length; i++)
        whole += records[i].length;
    return whole;
}

/* What the path area holds after a record that is taken is free. */
static int is_same(const struct session *a, const struct session *b)
{
    return a->events == b->events && a->running == b->running
        && a->definitions_used == b->definitions_used && a->tuples_used == b->tuples_used
        && a->reports_used == b->reports_used
        && memcmp(a->definitions, b->definitions, sizeof a->definitions) == 0
        && memcmp(a->tuples, b->tuples, sizeof a->tuples) == 0
        && memcmp(a->reports, b->reports, sizeof a->reports) == 0
        && memcmp(a->scopes, b->scopes, sizeof a->scopes) == 0
        && memcmp(a->names, b->names, sizeof a->names) == 0
        && memcmp(a->cells, b->cells, sizeof a->cells) == 0;
}

/* A first piece, and then what it left with the rest of the buffer behind it. */
static void run_in_two(const struct session *by_records, const uint8_t *buffer, size_t length,
                       size_t first)
{
    static struct session s;
    memset(&s, 0, sizeof s);
    uint64_t taken = 99;
    expect("first piece", first, run_over(&s, buffer, first, &taken), IDENTITY_TAKEN);
    expect("taken of the first", first, taken, whole_in(first));
    size_t rest = length - (size_t)taken;
    expect("second piece", first, run_over(&s, buffer + taken, rest, &taken), IDENTITY_TAKEN);
    expect("taken of the second", first, taken, rest);
    expect("all bytes behind", first, is_same(&s, by_records), 1);

    /* After FI: nothing is taken, and nothing changes. */
    expect("a buffer after FI", first, run_over(&s, buffer, length, &taken),
           IDENTITY_REFUSED_PLACE);
    expect("taken after FI", first, taken, 0);
    expect("all bytes after FI", first, is_same(&s, by_records), 1);
}

int main(void)
{
    static struct session by_records;
    static uint8_t buffer[COUNT * 64];
    run_by_records(&by_records);
    size_t length = join(buffer);
    for (size_t first = 0; first <= length; first++)
        run_in_two(&by_records, buffer, length, first);

    printf("%d passed, %d failed\n", passed, failed);
    return failed != 0;
}
