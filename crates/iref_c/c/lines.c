/*
 * Answers lines by the calls of iref.h, as the program iref_cli does: fields between TABs, of the verbs parts, normal,
 * equal, resolve, relative and to-uri. With the argument `check` it looks at the calls themselves instead of answering,
 * over the same lines, and says what is wrong: buffers too short by one, bytes that are not UTF-8, lengths of zero, and
 * whether equality, order, hash, canonical texts and sort keys agree, and faults with the rules.
 */
#define _POSIX_C_SOURCE 200809L
#include "iref.h"

#include <stdio.h>
#include <stdlib.h>
#include <string.h>
#include <sys/types.h>

/* What fills a buffer before a call, and stands behind its end. */
#define GUARD 0x7E
#define GUARDS 16

struct text {
    const char *at;
    size_t length;
};

/* A call that writes a text, on two texts, of which some use the first alone. */
typedef uint32_t write_call(const struct text *texts, char *out, size_t out_length, size_t *needed);

static uint32_t normal(const struct text *texts, char *out, size_t out_length, size_t *needed) {
    return iref_normalize_path(texts[0].at, texts[0].length, out, out_length, needed);
}

static uint32_t resolve(const struct text *texts, char *out, size_t out_length, size_t *needed) {
    return iref_resolve(texts[0].at, texts[0].length, texts[1].at, texts[1].length, out, out_length, needed);
}

static uint32_t relative(const struct text *texts, char *out, size_t out_length, size_t *needed) {
    return iref_relative(texts[0].at, texts[0].length, texts[1].at, texts[1].length, out, out_length, needed);
}

static uint32_t shortest(const struct text *texts, char *out, size_t out_length, size_t *needed) {
    return iref_relativized(texts[0].at, texts[0].length, texts[1].at, texts[1].length, out, out_length, needed);
}

static uint32_t to_uri(const struct text *texts, char *out, size_t out_length, size_t *needed) {
    return iref_to_uri(texts[0].at, texts[0].length, out, out_length, needed);
}

static uint32_t canonical(const struct text *texts, char *out, size_t out_length, size_t *needed) {
    return iref_canonical(texts[0].at, texts[0].length, out, out_length, needed);
}

static uint32_t sort_key(const struct text *texts, char *out, size_t out_length, size_t *needed) {
    return iref_sort_key(texts[0].at, texts[0].length, out, out_length, needed);
}

static uint32_t sort_range(const struct text *texts, char *out, size_t out_length, size_t *needed) {
    return iref_sort_range(texts[0].at, texts[0].length, out, out_length, needed);
}

/* A verb that writes a text, and how many texts it takes. iref_cli has the first four; the others are checked alone. */
struct verb {
    const char *name;
    size_t texts;
    write_call *call;
};

static const struct verb VERBS[] = {
    {"normal", 1, normal},       {"resolve", 2, resolve}, {"relative", 2, relative},   {"to-uri", 1, to_uri},
    {"canonical", 1, canonical}, {"key", 1, sort_key},    {"range", 1, sort_range},    {"relativized", 2, shortest}};

#define VERB_COUNT (sizeof VERBS / sizeof *VERBS)
#define ANSWERED 4

static int is_text(struct text text, const char *other) {
    return text.length == strlen(other) && memcmp(text.at, other, text.length) == 0;
}

/* ---- answers */

static const char *error_of(uint32_t status) {
    return status == IREF_MEMORY ? "error memory" : "error invalid";
}

static void print_text(struct text text) { fwrite(text.at, 1, text.length, stdout); }

/* TAB, and `=` and the component, or `-` where there is none. */
static void print_component(struct text text, struct iref_range range) {
    struct text component = {text.at + range.start, range.end - range.start};
    fputs(range.is_there ? "\t=" : "\t-", stdout);
    if (range.is_there) print_text(component);
}

static void answer_parts(struct text text) {
    struct iref_ranges ranges;
    uint32_t status = iref_parse_iri_reference(text.at, text.length, &ranges);
    fputs(status == IREF_OK ? "ok" : error_of(status), stdout);
    if (status == IREF_OK) {
        print_component(text, ranges.scheme);
        print_component(text, ranges.authority);
        print_component(text, ranges.path);
        print_component(text, ranges.query);
        print_component(text, ranges.fragment);
    }
}

static void answer_equal(const struct text *texts) {
    uint32_t equal;
    uint32_t status = iref_equal(texts[0].at, texts[0].length, texts[1].at, texts[1].length, &equal);
    fputs(status != IREF_OK ? error_of(status) : equal ? "ok\tyes" : "ok\tno", stdout);
}

/* The text that a call writes, in a buffer that is made longer where it is too short. */
static void answer_written(const struct verb *verb, const struct text *texts) {
    size_t length = 8, needed = 0;
    char *out = malloc(length);
    uint32_t status = out ? verb->call(texts, out, length, &needed) : IREF_MEMORY;
    if (status == IREF_SHORT) {
        free(out);
        length = needed;
        out = malloc(length);
        status = out ? verb->call(texts, out, length, &needed) : IREF_MEMORY;
    }
    fputs(status == IREF_OK ? "ok\t" : error_of(status), stdout);
    if (status == IREF_OK) print_text((struct text){out, needed});
    free(out);
}

/* The first field is the verb, and the others are texts. */
static void answer(const struct text *fields, size_t count) {
    size_t verb = 0;
    while (verb < ANSWERED && !is_text(fields[0], VERBS[verb].name)) verb++;
    if (verb < ANSWERED && count == 1 + VERBS[verb].texts)
        answer_written(&VERBS[verb], fields + 1);
    else if (is_text(fields[0], "parts") && count == 2)
        answer_parts(fields[1]);
    else if (is_text(fields[0], "equal") && count == 3)
        answer_equal(fields + 1);
    else
        fputs("error command", stdout);
    putchar('\n');
}

/* ---- checks */

static int wrong;

static void expect(int holds, const char *what, struct text text) {
    if (!holds) {
        wrong = 1;
        printf("lines check: %s, at `%.*s`\n", what, (int)text.length, text.at);
    }
}

/* Whether all of these bytes are as they were filled. */
static int is_filled(const char *bytes, size_t count) {
    for (size_t i = 0; i < count; i++)
        if (bytes[i] != GUARD) return 0;
    return 1;
}

/* Calls with a buffer of this length before guards. Nothing but the text is written, and that only where it fits. */
static uint32_t check_length(const struct verb *verb, const struct text *texts, size_t length, size_t *needed) {
    char *out = malloc(length + GUARDS);
    size_t unwritten = 0, before = *needed;
    if (!out) exit(2);
    memset(out, GUARD, length + GUARDS);
    uint32_t status = verb->call(texts, out, length, needed);
    if (status == IREF_OK) unwritten = *needed;
    if (status != IREF_OK && status != IREF_SHORT) expect(*needed == before, "a refusal changes needed", texts[0]);
    expect(status != IREF_OK || *needed <= length, "a text is longer than its buffer", texts[0]);
    expect(is_filled(out + unwritten, length + GUARDS - unwritten), "more than the text is written", texts[0]);
    free(out);
    return status;
}

/* The length of a buffer in which most texts fit. */
#define USUAL 4096

/* The text fits exactly into a buffer of its length, and into no shorter one. */
static void check_written(const struct verb *verb, const struct text *texts) {
    size_t needed = 12345, again = 0;
    uint32_t status = check_length(verb, texts, USUAL, &needed);
    if (status == IREF_SHORT) {
        expect(needed > USUAL, "a text that fits is called too long", texts[0]);
        status = check_length(verb, texts, needed, &again);
    }
    if (status != IREF_OK) {
        int of_two = status == IREF_SECOND_INVALID && verb->texts == 2, is_none = status == IREF_NONE && verb->call == shortest;
        expect(status == IREF_INVALID || of_two || is_none, verb->name, texts[0]);
        return;
    }
    for (size_t less = 0; less <= 2 && less <= needed; less++) {
        status = check_length(verb, texts, needed - less, &again);
        expect(status == (less ? IREF_SHORT : IREF_OK) && again == needed, "a length is wrong", texts[0]);
    }
    expect(check_length(verb, texts, needed + 1, &again) == IREF_OK, "a byte too many is refused", texts[0]);
    expect(check_length(verb, texts, 0, &again) == (needed ? IREF_SHORT : IREF_OK), "an empty buffer", texts[0]);
}

/* Nothing is wrong in a reference, and what is wrong in another text is within it. */
static void check_place(struct text text, int is_reference) {
    struct iref_place place;
    memset(&place, GUARD, sizeof place);
    expect(iref_fault(text.at, text.length, &place) == IREF_OK, "a fault is not answered", text);
    expect((place.what == IREF_NOTHING) == is_reference, "a fault is where none is, or none where one is", text);
    expect(place.what <= IREF_NOT_UTF8 && place.at <= text.length, "a fault is outside its text", text);
    expect(place.what != IREF_NOTHING || place.at == 0, "a place where nothing is wrong", text);
}

/* Ranges are within the text, and parts within the authority. */
static void check_ranges(struct text text) {
    struct iref_ranges ranges;
    memset(&ranges, GUARD, sizeof ranges);
    struct iref_ranges before = ranges;
    uint32_t narrow = iref_parse_uri(text.at, text.length, &ranges);
    uint32_t uri_reference = iref_parse_uri_reference(text.at, text.length, &ranges);
    uint32_t iri = iref_parse_iri(text.at, text.length, &ranges);
    uint32_t wide = iref_parse_iri_reference(text.at, text.length, &ranges);
    expect(narrow != IREF_OK || (uri_reference == IREF_OK && iri == IREF_OK), "a URI is in no wider rule", text);
    expect((uri_reference != IREF_OK && iri != IREF_OK) || wide == IREF_OK, "a reference is in no wider rule", text);
    check_place(text, wide == IREF_OK);
    if (wide != IREF_OK) {
        expect(wide == IREF_INVALID, "a status of one text", text);
        expect(memcmp(&ranges, &before, sizeof ranges) == 0, "a refusal changes ranges", text);
        return;
    }
    expect((iri == IREF_OK) == ranges.scheme.is_there, "an IRI is a reference with a scheme", text);
    expect(ranges.path.is_there && ranges.path.end <= text.length, "a path is within the text", text);
    expect(ranges.host.is_there == ranges.authority.is_there, "a host is where the authority is", text);
    size_t end = ranges.port.is_there ? ranges.port.end : ranges.host.end;
    size_t start = ranges.user_info.is_there ? ranges.user_info.start : ranges.host.start;
    expect(start == ranges.authority.start && end == ranges.authority.end, "parts fill their authority", text);
}

static uint64_t hash_of(struct text text) {
    uint64_t hash = 0;
    iref_hash(text.at, text.length, &hash);
    return hash;
}

static uint64_t keyed_hash_of(struct text text, uint64_t key0, uint64_t key1) {
    uint64_t hash = 0;
    iref_hash_keyed(text.at, text.length, key0, key1, &hash);
    return hash;
}

/* Each key counts, and keys of 0 are none. */
static void check_keys(struct text text) {
    uint64_t hash = keyed_hash_of(text, 1, 2);
    expect(keyed_hash_of(text, 0, 0) == hash_of(text), "keys of 0 give another hash", text);
    expect(keyed_hash_of(text, 3, 2) != hash && keyed_hash_of(text, 1, 3) != hash, "a key does not count", text);
    expect(keyed_hash_of(text, 2, 1) != hash, "the keys turned round give the same", text);
}

/* How two texts compare byte by byte, the shorter first. */
static int order_of(struct text first, struct text second) {
    size_t common = first.length < second.length ? first.length : second.length;
    int order = memcmp(first.at, second.at, common);
    return order ? order : (first.length > second.length) - (first.length < second.length);
}

/* How what a call writes of two references compares. */
static int order_of_written(write_call *call, struct text first, struct text second) {
    struct text of[2] = {first, second};
    for (int i = 0; i < 2; i++) {
        size_t needed = 0;
        char empty;
        call(&of[i], &empty, 0, &needed);
        char *out = malloc(needed + 1);
        if (!out) exit(2);
        call(&of[i], out, needed + 1, &needed);
        of[i] = (struct text){out, needed};
    }
    int order = order_of(of[0], of[1]);
    free((char *)of[0].at);
    free((char *)of[1].at);
    return order;
}

/* Equality, order and hash agree, in both directions. */
static void check_pair(struct text first, struct text second) {
    uint32_t equal = 7;
    int32_t order = 7, back = 7;
    uint32_t status = iref_equal(first.at, first.length, second.at, second.length, &equal);
    uint32_t other = iref_compare(first.at, first.length, second.at, second.length, &order);
    iref_compare(second.at, second.length, first.at, first.length, &back);
    expect(status == other, "equality and order differ in their status", first);
    if (status != IREF_OK) {
        expect(equal == 7 && order == 7 && back == 7, "a refused call stores something", first);
        return;
    }
    expect(equal == (order == 0) && order == -back, "equality and order do not agree", first);
    expect(equal == (hash_of(first) == hash_of(second)), "equality and hash do not agree", first);
    uint64_t hash = keyed_hash_of(first, 1, 2);
    expect(equal == (hash == keyed_hash_of(second, 1, 2)), "equality and hash under keys do not agree", first);
    int by_keys = order_of_written(sort_key, first, second);
    expect((by_keys > 0) - (by_keys < 0) == order, "order and sort keys do not agree", first);
    expect(equal == (order_of_written(canonical, first, second) == 0), "equality and canonical texts do not agree", first);
    check_keys(first);
}

/* All 70 URIs of eight segments, each empty or `%FF`, of which four are `%FF`, have hashes of their own. */
static void check_crowd(void) {
    uint64_t hashes[70], keyed[70];
    size_t count = 0;
    for (unsigned chosen = 0; chosen < 256; chosen++) {
        char at[64] = "http://h/";
        int full = 0;
        for (int segment = 0; segment < 8; segment++) {
            if (segment > 0) strcat(at, "/");
            if (chosen >> segment & 1) full++, strcat(at, "%FF");
        }
        if (full != 4) continue;
        struct text text = {at, strlen(at)};
        hashes[count] = hash_of(text);
        keyed[count] = keyed_hash_of(text, 1, 2);
        for (size_t i = 0; i < count; i++)
            expect(hashes[i] != hashes[count] && keyed[i] != keyed[count], "two of 70 URIs have one hash", text);
        count++;
    }
}

/* The texts that were looked at last, for pairs with the next one. */
#define RECENT 16
#define LONGEST 256

static struct {
    char at[LONGEST];
    size_t length;
} recent[RECENT];

static size_t seen;

/* Beside itself and those before it. */
static void check_pairs(struct text text) {
    check_pair(text, text);
    for (size_t i = 0; i < seen && i < RECENT; i++) check_pair(text, (struct text){recent[i].at, recent[i].length});
    if (text.length <= LONGEST) {
        memcpy(recent[seen % RECENT].at, text.at, text.length);
        recent[seen++ % RECENT].length = text.length;
    }
}

/* Every call, over the texts of a line. */
static void check(const struct text *fields, size_t count) {
    struct text texts[2] = {fields[count > 1 ? 1 : 0], fields[count - 1]};
    for (size_t verb = 0; verb < VERB_COUNT; verb++) check_written(&VERBS[verb], texts);
    for (size_t i = 0; i < count; i++) check_ranges(fields[i]);
    for (size_t i = 0; i < count; i++) check_pairs(fields[i]);
}

/* A text that is longer than most buffers is written into one that is long enough. */
static void check_long(void) {
    static char at[3 * USUAL];
    memset(at, 'a', sizeof at);
    for (size_t i = 7; i < sizeof at; i += 8) at[i] = '/';
    memcpy(at, "http:/", 6);
    struct text text = {at, sizeof at};
    check(&text, 1);
}

/* Bytes that are not UTF-8 are refused by every call, and the empty text is a reference. */
static void check_bytes(void) {
    static const char *const NOT_UTF8[] = {"\xFF", "a\xC3", "\xC0\xAF", "http://a/\xED\xA0\x80", "\x80"};
    struct text empty = {"", 0};
    uint64_t hash = 7;
    for (size_t i = 0; i < sizeof NOT_UTF8 / sizeof *NOT_UTF8; i++) {
        struct text texts[2] = {{NOT_UTF8[i], strlen(NOT_UTF8[i])}, {NOT_UTF8[i], strlen(NOT_UTF8[i])}};
        check(texts, 2);
        for (size_t verb = 0; verb < VERB_COUNT; verb++) {
            size_t needed = 0;
            uint32_t status = check_length(&VERBS[verb], texts, 8, &needed);
            expect(status == IREF_INVALID, "bytes that are not UTF-8 are not refused", texts[0]);
        }
        uint32_t status = iref_hash(texts[0].at, texts[0].length, &hash);
        expect(status == IREF_INVALID && hash == 7, "bytes that are not UTF-8 are hashed", texts[0]);
        status = iref_hash_keyed(texts[0].at, texts[0].length, 1, 2, &hash);
        expect(status == IREF_INVALID && hash == 7, "bytes that are not UTF-8 are hashed under keys", texts[0]);
    }
    check(&empty, 1);
    expect(iref_hash(empty.at, empty.length, &hash) == IREF_OK, "the empty text is no reference", empty);
}

/* ---- lines */

#define MOST_FIELDS 64

/* The text in memory of its own, in which no byte stands behind it. */
static struct text alone(struct text text) {
    char *at = malloc(text.length + (text.length == 0));
    if (!at) exit(2);
    memcpy(at, text.at, text.length);
    return (struct text){at, text.length};
}

/* The fields of a line, or as many of them as there is room for. */
static size_t fields_of(const char *line, size_t length, struct text *fields) {
    size_t count = 0;
    const char *end = line + length;
    for (const char *at = line;; at = fields[count - 1].at + fields[count - 1].length + 1) {
        const char *tab = memchr(at, '\t', (size_t)(end - at));
        fields[count].at = at;
        fields[count++].length = (size_t)((tab ? tab : end) - at);
        if (!tab || count == MOST_FIELDS) return count;
    }
}

int main(int count, char **arguments) {
    int is_check = count == 2 && strcmp(arguments[1], "check") == 0;
    char *line = NULL;
    size_t room = 0;
    ssize_t length;
    while ((length = getline(&line, &room, stdin)) >= 0) {
        struct text fields[MOST_FIELDS];
        if (length > 0 && line[length - 1] == '\n') length--;
        size_t found = fields_of(line, (size_t)length, fields);
        for (size_t i = 0; i < found; i++) fields[i] = alone(fields[i]);
        if (is_check)
            check(fields, found);
        else
            answer(fields, found);
        for (size_t i = 0; i < found; i++) free((char *)fields[i].at);
    }
    free(line);
    if (is_check) {
        check_bytes();
        check_long();
        check_crowd();
    }
    return ferror(stdin) || fflush(stdout) ? 2 : wrong;
}
