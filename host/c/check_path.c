/*
 * The path checker called from C, on cases of document 01, and the comparison
 * of two names. The last line is the count; the exit status is 1 where a case failed.
 */
#include <stdio.h>
#include <string.h>

#include "identity.h"

#if IDENTITY_VERSION_MAJOR != 4
#error "written for version 4 of identity.h"
#endif

struct call {
    uint8_t kind;
    const char *path;
    const char *prefixes;
    uint32_t due;
};

static const struct call calls[] = {
    {IDENTITY_SELECTOR, ".//.", "", IDENTITY_PASS},
    {IDENTITY_SELECTOR, ".", "", IDENTITY_PASS},
    {IDENTITY_SELECTOR, "a", "", IDENTITY_PASS},
    {IDENTITY_FIELD, "a|a", "", IDENTITY_PASS},
    {IDENTITY_FIELD, "@id", "", IDENTITY_PASS},
    {IDENTITY_SELECTOR, "p:a", "q p", IDENTITY_PASS},
    {IDENTITY_SELECTOR, "xml:a", "", IDENTITY_PASS},
    {IDENTITY_SELECTOR, "", "", IDENTITY_X1_EMPTY},
    {IDENTITY_SELECTOR, ":a", "", IDENTITY_X2_STRAY_COLON},
    {IDENTITY_SELECTOR, "*:a", "", IDENTITY_X2_STRAY_COLON},
    {IDENTITY_SELECTOR, "a\xC2\xA0", "", IDENTITY_X3_NO_NCNAME},
    {IDENTITY_SELECTOR, "a:", "", IDENTITY_X4_DANGLING_COLON},
    {IDENTITY_SELECTOR, "-a", "", IDENTITY_X5_CHARACTER},
    {IDENTITY_SELECTOR, "a|", "", IDENTITY_X6_EMPTY_ALTERNATIVE},
    {IDENTITY_SELECTOR, ".//", "", IDENTITY_X7_DESCENT_ALONE},
    {IDENTITY_SELECTOR, "@id", "", IDENTITY_X8_ATTRIBUTE_IN_SELECTOR},
    {IDENTITY_SELECTOR, "*::a", "", IDENTITY_X9_AXIS_NO_PLAIN_NAME},
    {IDENTITY_SELECTOR, "parent::a", "", IDENTITY_X10_AXIS_NOT_ALLOWED},
    {IDENTITY_SELECTOR, "p:a", "", IDENTITY_X11_UNDECLARED_PREFIX},
    {IDENTITY_SELECTOR, "/a", "", IDENTITY_X12_STEP},
    {IDENTITY_SELECTOR, "a/", "", IDENTITY_X13_TRAILING_SLASH},
    {IDENTITY_SELECTOR, "a//b", "", IDENTITY_X14_SEPARATOR},
    {IDENTITY_SELECTOR, "a b", "", IDENTITY_X14_SEPARATOR},
    {2, "a", "", IDENTITY_REFUSED_KIND},
    {IDENTITY_FIELD, "\xC0\xAF", "", IDENTITY_REFUSED_UTF8},
    {IDENTITY_FIELD, "a", "\xFF", IDENTITY_REFUSED_UTF8},
};

/* One byte more than is read. */
static uint8_t names[IDENTITY_PATH_MAX + 1];
static uint8_t spaces[IDENTITY_PREFIXES_MAX + 1];

static int failed;
static int passed;

static void expect(const char *path, uint32_t answer, uint32_t due)
{
    if (answer == due) {
        passed++;
        return;
    }
    failed++;
    printf("'%s': answered %u, and %u is due\n", path, (unsigned)answer, (unsigned)due);
}

static uint32_t compare(const char *a, const char *b, uint64_t *pairs)
{
    return identity_compare_names((const uint8_t *)a, strlen(a), (const uint8_t *)b, strlen(b), pairs);
}

int main(void)
{
    for (size_t i = 0; i < sizeof calls / sizeof calls[0]; i++) {
        const struct call *c = &calls[i];
        uint32_t answer = identity_check_path(
            c->kind, (const uint8_t *)c->path, strlen(c->path),
            (const uint8_t *)c->prefixes, strlen(c->prefixes));
        expect(c->path, answer, c->due);
    }

    memset(names, 'a', sizeof names);
    memset(spaces, ' ', sizeof spaces);
    expect("the longest path and prefixes",
           identity_check_path(0, names, IDENTITY_PATH_MAX, spaces, IDENTITY_PREFIXES_MAX),
           IDENTITY_PASS);
    expect("a longer path",
           identity_check_path(0, names, sizeof names, spaces, 0),
           IDENTITY_REFUSED_LIMIT);
    expect("longer prefixes",
           identity_check_path(0, names, 1, spaces, sizeof spaces),
           IDENTITY_REFUSED_LIMIT);

    uint8_t out[IDENTITY_PATH_MAX] = "??????????";
    uint64_t size = 77;
    expect("a selector with an attribute",
           identity_spell_path(IDENTITY_SELECTOR, (const uint8_t *)"@id", 3, out, sizeof out, &size),
           IDENTITY_REFUSED_UNREAD);
    expect("an output that is too short",
           identity_spell_path(IDENTITY_FIELD, (const uint8_t *)".//./@id", 8, out, 5, &size),
           IDENTITY_REFUSED_OUTPUT);
    expect("a refusal leaves the size", (uint32_t)size, 77);
    expect("one spelling",
           identity_spell_path(IDENTITY_FIELD, (const uint8_t *)".//./@id", 8, out, sizeof out, &size), 0);
    expect("its size", (uint32_t)size, 6);
    expect("its text", memcmp(out, ".//@id????", 10) == 0, 1);

    uint64_t pairs = 77;
    expect("names of other lengths", compare("voucher-header", "voucher-header-total", &pairs), 0);
    expect("their pairs", (uint32_t)pairs, 0);
    expect("names that share an end", compare("number-of-voucher", "amount-of-voucher", &pairs), 0);
    expect("their pairs", (uint32_t)pairs, 12);
    expect("equal names", compare("voucher-header", "voucher-header", &pairs), 1);
    expect("their pairs", (uint32_t)pairs, 14);

    printf("%d passed, %d failed\n", passed, failed);
    return failed != 0;
}
