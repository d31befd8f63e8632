/*
 * Makes the calls of iref.h in eight threads at once, on the same texts, and compares the answers with those of one thread
 * alone: `threads ROUNDS` makes all calls that many times in each thread, and says how often the answers differ. With a
 * second argument the threads pass one buffer, which iref.h forbids: whoever watches them has to report that a call of one
 * thread writes where a call of another does.
 */
#define _POSIX_C_SOURCE 200809L
#include "iref.h"

#include <pthread.h>
#include <stdio.h>
#include <stdlib.h>
#include <string.h>

#define THREADS 8
#define COUNT(rows) (sizeof(rows) / sizeof *(rows))

/* References, paths and others. */
static const char *const TEXTS[] = {"",
                                    "http://a/b/c/d;p?q",
                                    "http://a/b/c/../%64;p?q#f",
                                    "HTTP://u:p@a:80/b//c?q",
                                    "http://[2001:db8::7]/x/./y",
                                    "../../g?y",
                                    "g;x=1/../y",
                                    "//h/%7Eb",
                                    "?q",
                                    "#f",
                                    "/a/./b/../c/..",
                                    "../../../../../../x",
                                    "urn:example:animal:ferret:nose",
                                    "http://a/\xC3\xA9/\xE6\x97\xA5?\xC3\xA9",
                                    "http://a/1/2/3/4/5/6/7/8/9/10/11/12/13/14/15/16/17/18/19/20/../../../..",
                                    "a b",
                                    "//[::1]:x",
                                    "a\xFF"};

/* What is asked of a text: to be taken apart, to be written in another form, and to be written by a second one. */
typedef uint32_t of_ranges(const char *text, size_t length, struct iref_ranges *ranges);
typedef uint32_t of_one(const char *text, size_t length, char *out, size_t out_length, size_t *needed);
typedef uint32_t of_two(const char *first, size_t first_length, const char *second, size_t second_length, char *out,
                        size_t out_length, size_t *needed);

static of_ranges *const PARSES[] = {iref_parse_uri, iref_parse_uri_reference, iref_parse_iri, iref_parse_iri_reference};
static of_one *const ONES[] = {iref_normalize_path, iref_to_uri, iref_canonical, iref_sort_key, iref_sort_range};
static of_two *const TWOS[] = {iref_resolve, iref_relative, iref_relativized};

/* The lengths of buffers: one that is too short for most, and one that serves for all. */
static const size_t LENGTHS[] = {4, 256};

/* All answers on one text, one behind the other. */
struct answers {
    size_t length;
    unsigned char bytes[1 << 14];
};

static struct answers alone[COUNT(TEXTS)];
static pthread_barrier_t start;

static void put(struct answers *answers, const void *bytes, size_t length) {
    if (length > sizeof answers->bytes - answers->length) abort();
    memcpy(answers->bytes + answers->length, bytes, length);
    answers->length += length;
}

static void put_status(struct answers *answers, uint32_t status) { put(answers, &status, sizeof status); }

/* What a call has written: a length, and at IREF_OK as many bytes. */
static void put_written(struct answers *answers, uint32_t status, const char *out, size_t needed) {
    put_status(answers, status);
    put(answers, &needed, sizeof needed);
    if (status == IREF_OK) put(answers, out, needed);
}

static void put_numbers(struct answers *answers, const char *text, size_t length) {
    struct iref_place place = {0, 0};
    uint64_t hash = 0, keyed = 0;
    for (size_t i = 0; i < COUNT(PARSES); i++) {
        struct iref_ranges ranges;
        memset(&ranges, 0, sizeof ranges);
        put_status(answers, PARSES[i](text, length, &ranges));
        put(answers, &ranges, sizeof ranges);
    }
    put_status(answers, iref_fault(text, length, &place));
    put(answers, &place, sizeof place);
    put_status(answers, iref_hash(text, length, &hash));
    put(answers, &hash, sizeof hash);
    put_status(answers, iref_hash_keyed(text, length, 1, 2, &keyed));
    put(answers, &keyed, sizeof keyed);
}

static void put_two(struct answers *answers, const char *first, const char *second, char *out) {
    size_t first_length = strlen(first), second_length = strlen(second);
    uint32_t equal = 7;
    int32_t order = 7;
    put_status(answers, iref_equal(first, first_length, second, second_length, &equal));
    put(answers, &equal, sizeof equal);
    put_status(answers, iref_compare(first, first_length, second, second_length, &order));
    put(answers, &order, sizeof order);
    for (size_t i = 0; i < COUNT(TWOS) * COUNT(LENGTHS); i++) {
        size_t room = LENGTHS[i % COUNT(LENGTHS)], needed = 0;
        of_two *call = TWOS[i / COUNT(LENGTHS)];
        uint32_t status = call(first, first_length, second, second_length, out, room, &needed);
        put_written(answers, status, out, needed);
    }
}

/* Each call on the text of this number, and of two texts on it and each of the others. */
static void answer(size_t at, char *out, struct answers *answers) {
    const char *text = TEXTS[at];
    size_t length = strlen(text);
    answers->length = 0;
    put_numbers(answers, text, length);
    for (size_t i = 0; i < COUNT(ONES) * COUNT(LENGTHS); i++) {
        size_t needed = 0;
        uint32_t status = ONES[i / COUNT(LENGTHS)](text, length, out, LENGTHS[i % COUNT(LENGTHS)], &needed);
        put_written(answers, status, out, needed);
    }
    for (size_t i = 0; i < COUNT(TEXTS); i++) put_two(answers, text, TEXTS[i], out);
}

struct job {
    pthread_t thread;
    size_t first;  /* the text that it begins with, so that the threads make other calls at the same time */
    size_t rounds; /* how often it takes each of the texts */
    char *out;     /* the buffer that it passes */
    size_t wrong;  /* how often the answers on a text differ */
};

static void *run(void *given) {
    struct job *job = given;
    struct answers answers;
    pthread_barrier_wait(&start);
    for (size_t i = 0; i < job->rounds * COUNT(TEXTS); i++) {
        size_t at = (job->first + i) % COUNT(TEXTS);
        answer(at, job->out, &answers);
        job->wrong += answers.length != alone[at].length || memcmp(answers.bytes, alone[at].bytes, answers.length) != 0;
    }
    return NULL;
}

int main(int count, char **words) {
    static struct job jobs[THREADS];
    static char buffers[THREADS][256];
    size_t wrong = 0;
    if (count < 2 || pthread_barrier_init(&start, NULL, THREADS) != 0) return 2;
    for (size_t i = 0; i < COUNT(TEXTS); i++) answer(i, buffers[0], &alone[i]);
    for (size_t i = 0; i < THREADS; i++) {
        jobs[i].first = i * COUNT(TEXTS) / THREADS;
        jobs[i].rounds = strtoul(words[1], NULL, 10);
        jobs[i].out = buffers[count > 2 ? 0 : i];
        if (pthread_create(&jobs[i].thread, NULL, run, &jobs[i]) != 0) return 2;
    }
    for (size_t i = 0; i < THREADS; i++) {
        if (pthread_join(jobs[i].thread, NULL) != 0) return 2;
        wrong += jobs[i].wrong;
    }
    if (wrong) printf("the answers differ from those of one thread %zu times\n", wrong);
    return wrong != 0 || fflush(stdout) != 0;
}
