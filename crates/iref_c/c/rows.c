/*
 * What single calls of iref.h answer, as the header says and for some rows more. Prints a line for each that answers
 * something else.
 */
#include "iref.h"

#include <stdio.h>
#include <string.h>

static int wrong;

static void expect(int holds, const char *what, const char *text) {
    if (!holds) {
        wrong = 1;
        printf("rows: %s, at `%s`\n", what, text);
    }
}

/* A call that writes a text, on one text or on two. */
typedef uint32_t of_one(const char *text, size_t length, char *out, size_t out_length, size_t *needed);
typedef uint32_t of_two(const char *first, size_t first_length, const char *second, size_t second_length, char *out,
                        size_t out_length, size_t *needed);

/* A text and what is written for it. */
struct one {
    of_one *call;
    const char *text, *wanted;
};

/* Two texts and what is written for them, or NULL and the status. */
struct two {
    of_two *call;
    const char *first, *second, *wanted;
    uint32_t status;
};

static const struct one ONES[] = {{iref_normalize_path, "/../x", "/x"},
                                  {iref_normalize_path, "a/../../x", "../x"},
                                  {iref_normalize_path, "..", "../"},
                                  {iref_normalize_path, "a/..//b", ".//b"},
                                  {iref_to_uri, "http://a/\xC3\xA9", "http://a/%C3%A9"},
                                  {iref_canonical, "HTTP://a/%7Eb/./c", "http://a/~b/c"},
                                  {iref_canonical, "?%2B", "?+"},
                                  {iref_canonical, ".", ""},
                                  {iref_canonical, "%2E%2E/x", "../x"}};

static const struct two TWOS[] = {{iref_resolve, "../g", "http://a/b/c/d", "http://a/b/g", IREF_OK},
                                  {iref_resolve, "../x", "s:a", "s:../x", IREF_OK},
                                  {iref_resolve, "x/..", "s:a", "s:", IREF_OK},
                                  {iref_resolve, "../..//", "http:/a/b", "http:/.//", IREF_OK},
                                  {iref_relative, "http://a/b", "http://a/b/c/d", "../../b", IREF_OK},
                                  {iref_relative, "http://a", "http://a/b", "http://a", IREF_OK},
                                  {iref_relative, "//a/path", "http://a/path", "path", IREF_OK},
                                  {iref_relativized, "http://a/b/", "http://a/b/c/d", "..", IREF_OK},
                                  {iref_relativized, "http://a/b/c/g", "http://a/b/c/d;p?q", "g", IREF_OK},
                                  {iref_relativized, "http://a/b/c/d;p?q", "http://a/b/c/d;p?q", "", IREF_OK},
                                  {iref_relativized, "http://a/b/c/d;p?y", "http://a/b/c/d;p?q", "?y", IREF_OK},
                                  {iref_relativized, "http://a/", "http://a/b/c/d;p?q", "/", IREF_OK},
                                  {iref_relativized, "http://g/x", "http://a/b/c/d;p?q", "//g/x", IREF_OK},
                                  {iref_relativized, "http://a/%7Eb/c", "http://a/~b/d", "/%7Eb/c", IREF_OK},
                                  {iref_relativized, "http://a/x/../b?r", "http://a/x/../b?q", "?r", IREF_OK},
                                  {iref_relativized, "http://a/x/../b", "http://a/c", NULL, IREF_NONE},
                                  {iref_relativized, "http://h/a/..", "http://h/b", NULL, IREF_NONE},
                                  {iref_resolve, "a b", "//a", NULL, IREF_INVALID},
                                  {iref_resolve, "g", "//a/b", NULL, IREF_SECOND_INVALID},
                                  {iref_relative, "a b", "<", NULL, IREF_INVALID},
                                  {iref_relative, "a", "a b", NULL, IREF_SECOND_INVALID},
                                  {iref_relativized, "b", "s:a", NULL, IREF_INVALID},
                                  {iref_relativized, "s:a", "b", NULL, IREF_SECOND_INVALID}};

#define COUNT(rows) (sizeof(rows) / sizeof *(rows))

static void expect_text(const char *out, size_t length, const char *wanted, const char *text) {
    expect(length == strlen(wanted) && memcmp(out, wanted, length) == 0, "another text", text);
}

static void check_texts(void) {
    char out[64];
    for (size_t i = 0; i < COUNT(ONES); i++) {
        const struct one *row = &ONES[i];
        size_t needed = 0;
        uint32_t status = row->call(row->text, strlen(row->text), out, sizeof out, &needed);
        expect(status == IREF_OK, "another status", row->text);
        expect_text(out, needed, row->wanted, row->text);
    }
    for (size_t i = 0; i < COUNT(TWOS); i++) {
        const struct two *row = &TWOS[i];
        size_t needed = 0;
        uint32_t status =
            row->call(row->first, strlen(row->first), row->second, strlen(row->second), out, sizeof out, &needed);
        expect(status == row->status, "another status", row->first);
        if (row->wanted) expect_text(out, needed, row->wanted, row->first);
    }
}

/* Each stands before the next: what is absent comes first, and segments are compared in turn. */
static void check_order(void) {
    static const char *const ORDER[] = {"a", "/a", "/a/b", "/a!b", "//b", "//a@z", "s:"};
    for (size_t i = 0; i + 1 < COUNT(ORDER); i++) {
        int32_t order = 7;
        iref_compare(ORDER[i], strlen(ORDER[i]), ORDER[i + 1], strlen(ORDER[i + 1]), &order);
        expect(order == -1, "it does not stand before the next", ORDER[i]);
    }
}

static void check_equal(const char *first, const char *second, uint32_t wanted) {
    uint32_t equal = 7;
    iref_equal(first, strlen(first), second, strlen(second), &equal);
    expect(equal == wanted, "equality is wrong", first);
}

static void check_fault(const char *text, size_t what, size_t at) {
    struct iref_place place;
    iref_fault(text, strlen(text), &place);
    expect(place.what == what && place.at == at, "a place is wrong", text);
}

/* The status of both comparisons, where one of the texts is no reference. */
static void check_status(const char *first, const char *second, uint32_t wanted) {
    uint32_t equal = 7;
    int32_t order = 7;
    uint32_t status = iref_equal(first, strlen(first), second, strlen(second), &equal);
    uint32_t other = iref_compare(first, strlen(first), second, strlen(second), &order);
    expect(status == wanted && other == wanted, "another status", first);
}

/* A call that takes a text apart. */
typedef uint32_t of_ranges(const char *text, size_t length, struct iref_ranges *ranges);

/* The ranges of the components, in the order of the struct. */
static void check_parts(of_ranges *call, const char *text, const size_t wanted[8][3]) {
    struct iref_ranges ranges;
    expect(call(text, strlen(text), &ranges) == IREF_OK, "it is refused", text);
    const struct iref_range found[] = {ranges.scheme, ranges.authority, ranges.user_info, ranges.host,
                                       ranges.port,   ranges.path,      ranges.query,     ranges.fragment};
    for (size_t i = 0; i < COUNT(found); i++) {
        int is_same = found[i].is_there == wanted[i][0] && found[i].start == wanted[i][1] && found[i].end == wanted[i][2];
        expect(is_same, "a component stands elsewhere", text);
    }
}

/* Each of the calls, over a text with all components and over one that has no scheme. */
static void check_components(void) {
    static of_ranges *const CALLS[] = {iref_parse_uri_reference, iref_parse_iri_reference, iref_parse_uri, iref_parse_iri};
    static const size_t ALL[8][3] = {{1, 0, 4},   {1, 7, 15},  {1, 7, 10},  {1, 11, 12},
                                     {1, 13, 15}, {1, 15, 17}, {1, 18, 19}, {1, 20, 21}};
    static const size_t SOME[8][3] = {{0, 0, 0}, {1, 2, 6}, {0, 0, 0}, {1, 2, 3},
                                      {1, 4, 6}, {1, 6, 6}, {0, 0, 0}, {0, 0, 0}};
    for (size_t i = 0; i < COUNT(CALLS); i++) check_parts(CALLS[i], "http://u:p@h:80/a?q#f", ALL);
    for (size_t i = 0; i < 2; i++) check_parts(CALLS[i], "//h:80", SOME);
    struct iref_ranges ranges;
    expect(iref_parse_uri("//h:80", 6, &ranges) == IREF_INVALID, "it is no URI", "//h:80");
    expect(iref_parse_iri("//h:80", 6, &ranges) == IREF_INVALID, "it is no IRI", "//h:80");
}

/* The order of bytes, the shorter text first where it begins the longer. */
static int order_of(const char *first, size_t first_length, const char *second, size_t second_length) {
    int order = memcmp(first, second, first_length < second_length ? first_length : second_length);
    return order ? order : (first_length > second_length) - (first_length < second_length);
}

/* Whether the sort key of a reference stands in the range of another, and begins with the bytes that it says. */
static void check_below(const char *text, const char *above, int wanted) {
    char key[64], range[64];
    size_t length = 0, end = 0;
    expect(iref_sort_key(text, strlen(text), key, sizeof key, &length) == IREF_OK, "a sort key is not written", text);
    expect(iref_sort_range(above, strlen(above), range, sizeof range, &end) == IREF_OK, "a range is not written", above);
    int is_in = order_of(key, length, range, end - 1) >= 0 && order_of(key, length, range, end) < 0;
    expect(is_in == (length >= end - 1 && memcmp(key, range, end - 1) == 0), "a key in a range begins otherwise", text);
    expect(is_in == wanted, wanted ? "it is not below" : "it is below", text);
}

static void check_ranges(void) {
    static const char *const BELOW[] = {"http://h/docs", "http://h/docs/a", "http://h/docs?q", "HTTP://h/x/../docs/"};
    static const char *const UNSAFE[] = {"http://h/docs//../admin/s", "http://h/docs/..;/admin", "http://h/docs/%2e%2E/x"};
    static const char *const OTHERS[] = {"http://h/docsx", "http://h/doc", "http://h/", "http://i/docs/a", "/docs/a", ""};
    for (size_t i = 0; i < COUNT(BELOW); i++) check_below(BELOW[i], "http://h/docs?r#f", 1);
    for (size_t i = 0; i < COUNT(UNSAFE); i++) check_below(UNSAFE[i], "http://h/docs", 1);
    for (size_t i = 0; i < COUNT(OTHERS); i++) check_below(OTHERS[i], "http://h/docs", 0);
    check_below("http://h/docs", "http://h/", 1);
    check_below("http://h/docs", "http://h", 0);
    check_below("http://h?q", "http://h", 1);
    check_below("http://h/docs/a", "http://h/docs/", 0);
    check_below("s:/a", "s:", 0);
}

int main(void) {
    static const char KEY[] = "\1http\0\1\0a\0\0\1\1~b\0\1c\0\0\0";
    char out[64];
    size_t needed = 0;
    iref_sort_key("HTTP://a/%7Eb/./c", 17, out, sizeof out, &needed);
    expect(needed == sizeof KEY && memcmp(out, KEY, needed) == 0, "a sort key is wrong", "HTTP://a/%7Eb/./c");
    check_texts();
    check_order();
    check_ranges();
    check_components();
    check_status("a b", "<", IREF_INVALID);
    check_status("a", "a b", IREF_SECOND_INVALID);
    check_equal("HTTP://a/%7Eb/./c", "http://a/~b/c", 1);
    check_equal("?a%26b", "?a&b", 1);
    check_equal("a/..", "", 1);
    check_equal("%2E%2E/x", "../x", 1);
    check_equal("/a%2Fb", "/a/b", 0);
    check_equal("/a/%2E%2E/b", "/b", 0);
    check_equal("http://A", "http://a", 0);
    check_fault("1a:b", IREF_SCHEME, 0);
    check_fault("//a b@h", IREF_USER_INFO, 3);
    check_fault("//[::1]:x", IREF_PORT, 8);
    check_fault("//[::1]:8x]", IREF_HOST, 2);
    check_fault("http://h:8x0/", IREF_PORT, 10);
    check_fault("a b", IREF_PATH, 1);
    check_fault("?a|b", IREF_QUERY, 2);
    check_fault("#a#b", IREF_FRAGMENT, 2);
    check_fault("http://a@b@c", IREF_HOST, 10);
    check_fault("http://[x]/", IREF_HOST, 7);
    check_fault("a\xC3", IREF_NOT_UTF8, 1);
    check_fault("a b\xFF", IREF_NOT_UTF8, 3);
    check_fault("a", IREF_NOTHING, 0);
    return fflush(stdout) ? 2 : wrong;
}
