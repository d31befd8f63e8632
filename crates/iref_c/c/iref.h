/*
 * URIs and IRIs, as RFC 3986 and RFC 3987 say, for C.
 *
 * Texts. A text is a pointer to its first byte and its length in bytes. It need not end in a byte of value 0, and any
 * bytes may stand in it. Bytes that are not UTF-8 are in no rule, so each call but iref_fault refuses them.
 *
 * Families. Each URI is an IRI, and each reference of URIs one of IRIs, so the calls on IRIs serve for URIs: of URIs they
 * answer URIs. iref_parse_uri and iref_parse_uri_reference say whether a text is of the narrower family.
 *
 * What the caller owes. No pointer is NULL, not even one of length 0. What is passed as a text holds that many bytes that
 * can be read, and does not change during the call. What is passed as a buffer holds that many bytes that can be read and
 * written, and the memory for each result is aligned as its type is. No buffer and no such memory overlaps anything else
 * that is passed. malloc, realloc and free are of one allocator, and malloc and realloc align a block to each power of two
 * up to 16 that divides its size. iref_normalize_path, iref_to_uri, iref_canonical, iref_sort_key and iref_sort_range,
 * which alone take memory, are not called from a signal handler, nor in the forked child of a process with threads. Nothing
 * checks any of this.
 *
 * Threads. Nothing is kept between calls and no call waits for another, so any of them may run in several threads at once,
 * on the same texts too. During a call no other thread writes its texts, or reads or writes its buffer or the memory for
 * its results: two calls at once never share a buffer. malloc, realloc and free may be called in several threads at once,
 * as those of the C library may. No call reads or sets errno, but malloc and realloc may set it.
 *
 * Results. A call answers a status, one of those below. Where it is not IREF_OK, nothing is written, except *needed at
 * IREF_SHORT.
 *
 * Example. Prints http://a/b/g:
 *
 *     const char *reference = "../g", *base = "http://a/b/c/d";
 *     char out[64];
 *     size_t needed;
 *     if (iref_resolve(reference, strlen(reference), base, strlen(base), out, sizeof out, &needed) == IREF_OK)
 *         printf("%.*s\n", (int)needed, out);
 */
#ifndef IREF_H
#define IREF_H

#include <stddef.h>
#include <stdint.h>

#ifdef __cplusplus
extern "C" {
#endif

/* Statuses. */
#define IREF_OK 0             /* done */
#define IREF_INVALID 1        /* the text, or the first of two, is not in the rule that its call names */
#define IREF_SECOND_INVALID 2 /* the first of two texts is in its rule, and the second is not in its own */
#define IREF_SHORT 3          /* the buffer is too short: *needed is the length that serves */
#define IREF_MEMORY 4         /* memory was refused, or a length cannot be counted */
#define IREF_NONE 5           /* nothing is as the call asks: iref_relativized alone answers this */

/* Where a component stands in its text. */
struct iref_range {
    size_t is_there; /* 1 where there is one, else 0, and then the others are 0 too */
    size_t start;    /* where it begins, in bytes from the beginning of the text */
    size_t end;      /* where it ends: the offset of the byte after its last, so that end - start bytes are in it */
};

/* Where the components of a text stand, without the delimiters `:`, `//`, `@`, `?` and `#` between them (RFC 3986 section 3). */
struct iref_ranges {
    struct iref_range scheme;    /* section 3.1 */
    struct iref_range authority; /* section 3.2: user info, host and port, with `@` and `:` between them */
    struct iref_range user_info; /* section 3.2.1 */
    struct iref_range host;      /* section 3.2.2: there where the authority is; an IP literal has its `[` and `]` */
    struct iref_range port;      /* section 3.2.3: its digits, of which there may be none or any number */
    struct iref_range path;      /* section 3.3: always there, and may be empty */
    struct iref_range query;     /* section 3.4 */
    struct iref_range fragment;  /* section 3.5 */
};

/* Whether a text is in a rule, and then the ranges of its components: IREF_OK or IREF_INVALID. Of `//h:80` the host is
 * at 2 to 3 and the port at 4 to 6. */

/* A URI: it has a scheme (RFC 3986 section 3). */
uint32_t iref_parse_uri(const char *text, size_t length, struct iref_ranges *ranges);

/* A reference of URIs: a URI, or one that is relative to a URI (RFC 3986 section 4.1). */
uint32_t iref_parse_uri_reference(const char *text, size_t length, struct iref_ranges *ranges);

/* An IRI: as a URI, but characters beyond ASCII may stand in it (RFC 3987 section 2.2). */
uint32_t iref_parse_iri(const char *text, size_t length, struct iref_ranges *ranges);

/* A reference of IRIs (RFC 3987 section 2.2). */
uint32_t iref_parse_iri_reference(const char *text, size_t length, struct iref_ranges *ranges);

/* What is wrong in a text. */
#define IREF_NOTHING 0
#define IREF_SCHEME 1
#define IREF_USER_INFO 2
#define IREF_HOST 3
#define IREF_PORT 4
#define IREF_PATH 5
#define IREF_QUERY 6
#define IREF_FRAGMENT 7
#define IREF_NOT_UTF8 8

/* What is wrong in a text, and where. */
struct iref_place {
    size_t what; /* IREF_NOT_UTF8 if the bytes are not; else the first component outside its rule; else IREF_NOTHING */
    size_t at;   /* how many bytes stand before the place; 0 where nothing is wrong */
};

/* Why a text is no reference of IRIs, and where. It is cut into components by the expression of RFC 3986 appendix B, an
 * authority at its first `@`, and what follows at the first `:`, or behind the last `]` if it begins with `[`. What stands
 * of the component before the place can begin one of its rule, and with the next character it cannot, unless the component
 * ends there. A host that begins with `[` and is outside its rule is wrong at the `[`. Bytes that are not UTF-8 are wrong
 * behind the longest beginning that is. Of `http://h:8x0/` *place becomes IREF_PORT and 10, of each reference of IRIs
 * IREF_NOTHING and 0, as of `a`, which is no URI. It answers IREF_OK, whatever the bytes are. */
uint32_t iref_fault(const char *text, size_t length, struct iref_place *place);

/* Comparison of references of IRIs. First a reference is cut into its components, and its path into segments, as they are
 * written, and the segments `.` and `..` are removed as by iref_normalize_path (RFC 3986 section 6.2.2.3). Then schemes
 * are compared without regard to case (6.2.2.1), and elsewhere every escape as the byte that it stands for. So `?a%26b`
 * equals `?a&b`, which section 2.2 keeps apart; but `/a%2Fb` is not equal to `/a/b`, nor `/a/%2E%2E/b` to `/b`, which other
 * programs may take for the same: see iref_sort_range. Hosts keep their case, which section 6.2.2.1 ignores, and no rule of
 * a scheme is used. Relative references that are equal may resolve to different URIs: `a/..` and the empty one are equal,
 * and so are `%2E%2E/x` and `../x`.
 *
 * The calls agree: two references are equal exactly where their order is 0, and equal ones have one hash. Each answers
 * IREF_OK, IREF_INVALID or IREF_SECOND_INVALID. */

/* *equal becomes 1 where the references are equal, else 0: it is 1 of `HTTP://a/%7Eb/./c` and `http://a/~b/c`. */
uint32_t iref_equal(const char *first, size_t first_length, const char *second, size_t second_length, uint32_t *equal);

/* *order becomes -1 where the first reference comes before the second, 0 where they are equal, and 1 where it comes after.
 * They are compared by scheme, authority (by user info, host and port), path, query and fragment, in this order. What is
 * absent comes first. A path that does not begin with `/` comes before one that does; else segments are compared in turn,
 * and the path that ends first comes first. Each is compared byte by byte, with its escapes as in iref_equal. */
uint32_t iref_compare(const char *first, size_t first_length, const char *second, size_t second_length, int32_t *order);

/* *hash becomes the hash of the reference, by SipHash-1-3 with keys of 0: the same in each run of each program that has this
 * version of the library. Another version may give another, so do not store it. Whoever may choose the texts can choose many
 * with one hash: a table that strangers fill takes iref_hash_keyed. */
uint32_t iref_hash(const char *text, size_t length, uint64_t *hash);

/* *hash becomes the hash of the reference, by SipHash-1-3 with these keys, which are random and stay secret: iref_hash is
 * this with keys of 0. Equal references have one hash under the same keys. */
uint32_t iref_hash_keyed(const char *text, size_t length, uint64_t key0, uint64_t key1, uint64_t *hash);

/* Texts that are written into the caller's buffer `out` of `out_length` bytes, and *needed becomes their length. At
 * IREF_SHORT that is more than out_length, and the buffer is as it was. At IREF_OK the text stands first in the buffer, no
 * byte follows it, and the bytes of the buffer behind it are as they were. Each answers IREF_OK, IREF_INVALID, IREF_SHORT
 * or IREF_MEMORY, where there are two texts IREF_SECOND_INVALID too, and iref_relativized IREF_NONE too. */

/* The normal form of a path of IRIs: without the segments `.` and `..` (RFC 3986 section 5.2.4). A `..` that no segment
 * before it cancels is removed from a path that begins with `/`, and stays at the front of another: `/../x` gives `/x`,
 * `a/../../x` gives `../x`, and `..` gives `../`. Where the path would be read as something else, a segment `.` stands
 * first: `a/..//b` gives `.//b`. */
uint32_t iref_normalize_path(const char *path, size_t path_length, char *out, size_t out_length, size_t *needed);

/* What a reference of IRIs resolves to against a base, which is an IRI: strict (RFC 3986 section 5.2). `../g` and
 * `http://a/b/c/d` give `http://a/b/g`. A reference without a path keeps that of the base as it stands. Else the path
 * becomes normal, as by iref_normalize_path. Section 5.2.4 differs where it does not begin with `/`: here `../x` and `s:a`
 * give `s:../x`, and `x/..` and `s:a` give `s:`. And a segment `.` may stand first: `../..//` and `http:/a/b` give
 * `http:/.//`, since `http://` would have an authority. */
uint32_t iref_resolve(const char *reference, size_t reference_length, const char *base, size_t base_length, char *out,
                      size_t out_length, size_t *needed);

/* A reference that leads from a base to a target, both references of IRIs: the way back from resolution (RFC 3986 section
 * 5.2). From `http://a/b/c/d` to `http://a/b` it is `../../b`. A target with another scheme or authority is given whole, and
 * so is one whose path does not begin with `/`, as `http://a`, unless the empty path leads to it. A target that begins with
 * `/` has the scheme of the base. Against a base with a scheme the reference resolves to a text that is equal to what the
 * target resolves to, perhaps in other characters. */
uint32_t iref_relative(const char *target, size_t target_length, const char *base, size_t base_length, char *out,
                       size_t out_length, size_t *needed);

/* The shortest reference that resolves against a base to the target, character for character, both IRIs (RFC 3986 sections
 * 4.2 and 5.2). From `http://a/b/c/d` to `http://a/b/` it is `..`, to `http://a/` it is `/`, and to `http://g/x` it is
 * `//g/x`. IREF_NONE where no reference does: from `http://a/c` none leads to `http://a/x/../b`, since resolution removes
 * the segments `.` and `..`. */
uint32_t iref_relativized(const char *target, size_t target_length, const char *base, size_t base_length, char *out,
                          size_t out_length, size_t *needed);

/* The reference of URIs that a reference of IRIs maps to (RFC 3987 section 3.1): each byte beyond ASCII becomes its escape.
 * `http://a/\u00E9` gives `http://a/%C3%A9`. It equals the one that it maps. */
uint32_t iref_to_uri(const char *reference, size_t reference_length, char *out, size_t out_length, size_t *needed);

/* The canonical text of a reference of IRIs, which is a reference of URIs: the same for two references exactly where they
 * are equal. `HTTP://a/%7Eb/./c` gives `http://a/~b/c`. It is to be compared and stored, not to be fetched: it is `?+` of
 * both `?%2B` and `?+`, which servers may tell apart. Make it of what was resolved, not of a reference or a base: that of
 * `.` is the empty text, and that of `%2E%2E/x` is `../x`, which resolve to other URIs. */
uint32_t iref_canonical(const char *reference, size_t reference_length, char *out, size_t out_length, size_t *needed);

/* The sort key of a reference of IRIs: bytes, of which any may be 0, that memcmp puts in the order of iref_compare, the
 * shorter of two first where it begins the longer. Two are the same exactly where the references are equal. */
uint32_t iref_sort_key(const char *reference, size_t reference_length, char *out, size_t out_length, size_t *needed);

/* The range of the sort keys of a reference of IRIs and of all below it: of those that have its scheme and its authority,
 * whose path begins with `/` exactly if its own does, and whose normal path begins with all segments of its own, compared
 * as by iref_equal. Its query and fragment do not count. The end of the range is written: all *needed bytes, of which
 * the last is 2. The beginning of the range is the same bytes without the last: *needed - 1 of them. By memcmp, as
 * iref_sort_key says, these sort keys are not less than the beginning and are less than the end, and no other sort keys
 * are: an index tests `key >= ? AND key < ?`. They are also those that begin with the *needed - 1 bytes. Below
 * `http://h/docs` are it itself, `http://h/docs/a`, `http://h/docs?q` and `HTTP://h/x/../docs/`, not `http://h/docsx`.
 * Below `http://h/` is all of this authority with an absolute path, below `http://h` only it itself with or without a query
 * and a fragment, and below `http://h/docs/`, which ends in an empty segment, not `http://h/docs/a`.
 *
 * That a text is below another does not say where its path leads on a disk or at a server: `http://h/docs//../admin/s`,
 * `http://h/docs/..;/admin` and `http://h/docs/%2e%2E/x` are below `http://h/docs`. Whoever checks that a path stays in a
 * folder takes what iref_resolve writes, passes this on and not the text that was tested, and refuses each segment that is
 * empty, `.` or `..` when it is decoded and cut at its first `;`, or that holds `/`, `\` or a byte 0 when it is decoded. */
uint32_t iref_sort_range(const char *reference, size_t reference_length, char *out, size_t out_length, size_t *needed);

#ifdef __cplusplus
}
#endif

#endif
