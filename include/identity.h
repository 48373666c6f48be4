/*
 * The checker of XML Schema identity constraints, for C.
 *
 * Link with crates/doors/out/libdoors.a, which `rt lib` in crates/doors proves
 * and writes. "Document 01" is docs/01-scope.md of the folder ../shared.
 */
#ifndef IDENTITY_H
#define IDENTITY_H

#include <stddef.h>
#include <stdint.h>

/*
 * The version of this header. The first number rises when a call or the
 * meaning of a number changes, the second when something is added.
 */
#define IDENTITY_VERSION_MAJOR 4
#define IDENTITY_VERSION_MINOR 0

#ifdef __cplusplus
extern "C" {
#endif

/* What a path is: the kind byte of identity_check_path. */
#define IDENTITY_SELECTOR 0
#define IDENTITY_FIELD 1

/* The answer to a path that passes. */
#define IDENTITY_PASS 0

/* Refused: what was handed in is turned back unread. Checked in this order. */
#define IDENTITY_REFUSED_KIND 4  /* the kind byte is neither 0 nor 1 */
#define IDENTITY_REFUSED_UTF8 3  /* path or prefixes are not UTF-8 (RFC 3629) */
#define IDENTITY_REFUSED_LIMIT 5 /* path over 255 or prefixes over 16,384 bytes */

/* The longest path and the longest text of prefixes that are read, in bytes. */
#define IDENTITY_PATH_MAX 255
#define IDENTITY_PREFIXES_MAX 16384

/* Not a path of its kind: 100 + k for the reason Xk of document 01. */
#define IDENTITY_X1_EMPTY 101                  /* nothing but white space */
#define IDENTITY_X2_STRAY_COLON 102            /* `:a`, `*:a` */
#define IDENTITY_X3_NO_NCNAME 103              /* a name that is no NCName */
#define IDENTITY_X4_DANGLING_COLON 104         /* `a:` */
#define IDENTITY_X5_CHARACTER 105              /* `-a` */
#define IDENTITY_X6_EMPTY_ALTERNATIVE 106      /* `a|` */
#define IDENTITY_X7_DESCENT_ALONE 107          /* `.//` */
#define IDENTITY_X8_ATTRIBUTE_IN_SELECTOR 108  /* selector `@id` */
#define IDENTITY_X9_AXIS_NO_PLAIN_NAME 109     /* `*::a` */
#define IDENTITY_X10_AXIS_NOT_ALLOWED 110      /* `parent::a` */
#define IDENTITY_X11_UNDECLARED_PREFIX 111     /* `p:a`, p not declared */
#define IDENTITY_X12_STEP 112                  /* `/a` */
#define IDENTITY_X13_TRAILING_SLASH 113        /* `a/` */
#define IDENTITY_X14_SEPARATOR 114             /* `a//b`, `a b` */

/*
 * Checks the path of a selector or of a field by the grammar of XML Schema 1.0
 * Part 1, 3.11.6. White space between tokens is XML's: space, tab, carriage
 * return, line feed. Any other character stands for itself.
 *
 * kind      IDENTITY_SELECTOR or IDENTITY_FIELD.
 * path      path_len bytes.
 * prefixes  prefixes_len bytes: the declared prefixes with single spaces
 *           between them. The text is split at each space, and a prefix is
 *           declared where it equals a piece. `xml` is always declared.
 *
 * Neither text need end in a zero byte. Neither pointer may be null, not even
 * with a length of 0: hand in "". The texts are only read, and nothing may
 * write to them during the call. Any bytes of any length may be handed in.
 *
 * Answers IDENTITY_PASS, or 3, 4 or 5 for a refusal, or 101 to 114 for the
 * first reason met, alternative by alternative. There is no other answer.
 *
 * What passes is in force: no report of kind 6 ever bears the number of a
 * constraint whose paths all pass with the prefixes bound for them.
 */
uint32_t identity_check_path(uint8_t kind,
                             const uint8_t *path, size_t path_len,
                             const uint8_t *prefixes, size_t prefixes_len);

/* Refused by the writer of paths, after 4, 3 and 5, in this order. */
#define IDENTITY_REFUSED_UNREAD 23 /* the reader does not take the path for that kind */
#define IDENTITY_REFUSED_OUTPUT 24 /* the output is shorter than the text */

/*
 * Writes the one spelling of a path that the reader takes: no white space, no
 * `child::`, `@` for `attribute::`, and `.` only where no step and no attribute
 * would stand. Alternatives and prefixes stay as they are given. Two paths get
 * equal text exactly where they are read alike, and the text is spelled as
 * itself.
 *
 * kind  IDENTITY_SELECTOR or IDENTITY_FIELD.
 * path  path_len bytes, only read. Limits are asked of the path as it is handed
 *       in: 255 bytes, seven `|` and sixteen `/` are taken.
 * out   out_len bytes; IDENTITY_PATH_MAX are always enough. The text is written
 *       at its front, and what is behind the text stays. It may not overlap the
 *       path.
 * size  is set to the bytes of the text.
 *
 * No pointer may be null, not even with a length of 0.
 *
 * Answers 0, or 4, 3, 5, 23 or 24 for a refusal; then nothing is written, not
 * even size.
 */
uint32_t identity_spell_path(uint8_t kind,
                             const uint8_t *path, size_t path_len,
                             uint8_t *out, size_t out_len,
                             uint64_t *size);

/*
 * Compares two names: their lengths first, then their bytes from the last one
 * back, up to the first pair that differs. This is how the library compares
 * names, prefixes, URIs and the texts of tuples.
 *
 * a, b   a_len and b_len bytes, of any length. As above neither pointer may
 *        be null, and the bytes are only read.
 * pairs  is set to how many pairs of bytes were looked at: 0 where the lengths
 *        differ, else the equal ones at the end and the first unequal one, if
 *        there is one. Never null.
 *
 * Answers 1 where the two are the same, else 0. Nothing is refused.
 */
uint32_t identity_compare_names(const uint8_t *a, size_t a_len,
                                const uint8_t *b, size_t b_len,
                                uint64_t *pairs);

/*
 * A session: five numbers, three stores and four areas, all of the caller's.
 *
 * Set-up is five zeros; stores and areas may then hold anything. Records are
 * handed in one by one (identity_record) or as they stand in a buffer
 * (identity_run), the two calls in any order, and every call gets numbers,
 * stores and areas as the last call left them: nobody else may write them
 * meanwhile.
 */

/* The answer to a record that is taken. */
#define IDENTITY_TAKEN 0

/*
 * Refused because of what was handed in; 3, 4 and 5 are IDENTITY_REFUSED_UTF8,
 * a byte outside its values and IDENTITY_REFUSED_LIMIT. No call of a session
 * that is kept as said above, with areas long enough, answers 10.
 */
#define IDENTITY_REFUSED_MARK 1   /* fewer than two bytes, or no mark of a record */
#define IDENTITY_REFUSED_PARTS 2  /* more or fewer bytes than stated, or than the parts take */
#define IDENTITY_REFUSED_BYTE 4   /* a kind, refer, simple or NS byte outside its values */
#define IDENTITY_REFUSED_UNFIT 10 /* an area is too short, or the session is not well formed */

/* Refused because of the session. */
#define IDENTITY_REFUSED_PLACE 11       /* ID or NS after the first ES; any record after FI */
#define IDENTITY_REFUSED_UNDEFINED 12   /* an NS without its path; an ES number never defined */
#define IDENTITY_REFUSED_UNBALANCED 13  /* EE with no element open; FI with one open */
#define IDENTITY_REFUSED_DEPTH 14       /* depth over 64 */
#define IDENTITY_REFUSED_TUPLES 15      /* no room for the tuples of this record */
#define IDENTITY_REFUSED_REPORTS 16     /* no room for its reports */
#define IDENTITY_REFUSED_BOUND 17       /* a schema-wide prefix bound again */
#define IDENTITY_REFUSED_DEFINITIONS 18 /* 33rd constraint, 65th binding, or no room */
#define IDENTITY_REFUSED_EVENTS 19      /* 1,000,000 events already taken */
#define IDENTITY_REFUSED_SCOPES 20      /* open scopes over 16 */
#define IDENTITY_REFUSED_SELECTIONS 21  /* open selections over 32 */

/*
 * No call needs more of the caller's stack than this, in bytes: a run keeps
 * marks of the tuples there, and an FI a table of where they are.
 */
#define IDENTITY_STACK_MAX 327680

/* The simple byte of an EE record; any other is refused (4). */
#define IDENTITY_NOT_SIMPLE 0      /* the element has no simple value */
#define IDENTITY_SIMPLE 1          /* it has one */
#define IDENTITY_SIMPLE_NILLABLE 2 /* it has one, and is declared nillable */

/*
 * The kind byte of an RP record. Its field index is used by 3 and 7, its tuple
 * number by 4 and 5; an unused number is 0.
 */
#define IDENTITY_REPORT_SEVERAL 1    /* a field has several nodes */
#define IDENTITY_REPORT_NOT_SIMPLE 2 /* a field is an element without a simple value */
#define IDENTITY_REPORT_MISSING 3    /* a key field is missing: the lowest such field */
#define IDENTITY_REPORT_DUPLICATE 4  /* the tuple is there already, with this number */
#define IDENTITY_REPORT_UNANSWERED 5 /* nothing answers the keyref tuple of this number */
#define IDENTITY_REPORT_UNREAD 6     /* a path of the constraint does not read */
#define IDENTITY_REPORT_NILLABLE 7   /* all fields of a key are set, this one the lowest on a
                                        nillable element; no tuple is kept */

/* The least lengths of the areas, in bytes. The stores may have any. */
#define IDENTITY_PATHS_MIN 1024
#define IDENTITY_SCOPES_MIN 192
#define IDENTITY_NAMES_MIN 32896
#define IDENTITY_CELLS_MIN 16384

/*
 * Hands in one record of a session, whole: ID, NS, ES, EE or FI of document 01.
 *
 * events .. reports_used  the five numbers: records taken, the running counts
 *                         in one number, and the used bytes of each store.
 * record                  record_len bytes; any bytes may be handed in.
 * definitions             the definition store, which keeps ID and NS whole.
 * tuples                  the tuple store, which takes TU records.
 * reports                 the report store, which takes RP records.
 * paths, names, cells     the path area, the open-names area, the field cells.
 * scopes                  the open scopes: a scope is twelve bytes, the numbers
 *                         of its constraint and of itself and the depth of its
 *                         element, four bytes each, the low byte first. Bytes
 *                         behind the first sixteen scopes stay as they are.
 *
 * No pointer may be null, not even with a length of 0, and nothing that is lent
 * may lie in anything else that is.
 *
 * Answers IDENTITY_TAKEN, or the number of the refusal: 1 to 5 or 10 to 21. A
 * refused call changes no number and no lent byte. After a record that is taken
 * what the first IDENTITY_PATHS_MIN bytes of the path area hold is free; bytes
 * behind them stay as they are.
 */
uint32_t identity_record(uint64_t *events, uint64_t *running,
                         uint64_t *definitions_used, uint64_t *tuples_used,
                         uint64_t *reports_used,
                         const uint8_t *record, size_t record_len,
                         uint8_t *definitions, size_t definitions_len,
                         uint8_t *tuples, size_t tuples_len,
                         uint8_t *reports, size_t reports_len,
                         uint8_t *paths, size_t paths_len,
                         uint8_t *scopes, size_t scopes_len,
                         uint8_t *names, size_t names_len,
                         uint8_t *cells, size_t cells_len);

/*
 * Runs over a buffer of records: hands in the whole records that stand in it
 * one after another, each as identity_record takes it, until one is refused.
 * It tests once, and not at each record, whether the session is well formed.
 *
 * buffer  buffer_len bytes; any bytes may be handed in. A record is a header of
 *         four bytes and as many more as the header states. One that is not
 *         whole at the end of the buffer is not handed in; a whole header that
 *         states over 16,384 is handed in as it is, and so is refused.
 * taken   set to the bytes of the records that were taken.
 *
 * All else is as above, of pointers and what is lent too.
 *
 * Answers IDENTITY_TAKEN, also where no record is whole; or the number of the
 * refusal of the last record handed in, which then stands at buffer + *taken.
 * After IDENTITY_TAKEN there stands what is not whole: hand it in again with
 * more behind it. At the end of all input hand such a rest to identity_record,
 * which answers what it lacks.
 *
 * The records before a refusal stay taken. Where *taken is 0 nothing else
 * changed, neither a number nor a lent byte.
 */
uint32_t identity_run(uint64_t *events, uint64_t *running,
                      uint64_t *definitions_used, uint64_t *tuples_used,
                      uint64_t *reports_used,
                      const uint8_t *buffer, size_t buffer_len,
                      uint8_t *definitions, size_t definitions_len,
                      uint8_t *tuples, size_t tuples_len,
                      uint8_t *reports, size_t reports_len,
                      uint8_t *paths, size_t paths_len,
                      uint8_t *scopes, size_t scopes_len,
                      uint8_t *names, size_t names_len,
                      uint8_t *cells, size_t cells_len,
                      uint64_t *taken);

/*
 * Shows a field of a TU: where it starts in the tuple store, and how many bytes
 * it has.
 *
 * used          the used bytes of the store.
 * tuples        the tuple store, which is only read.
 * number        of the TU, counting from 1.
 * field         counting from 0.
 * start, size   the part that holds the field. Both are 0 where no TU or field
 *               has the number, where the used bytes are no TUs, and where more
 *               bytes are used than there are.
 */
void identity_tuple_field(uint64_t used,
                          const uint8_t *tuples, size_t tuples_len,
                          uint32_t number, uint32_t field,
                          uint64_t *start, uint64_t *size);

#ifdef __cplusplus
}
#endif

#endif
