// What the jobs of crates/iref_bench read, for the programs of this folder.
#ifndef INPUTS_H
#define INPUTS_H

#include <stddef.h>
#include <stdint.h>

#ifdef __cplusplus
extern "C" {
#endif

// The longest text has fewer bytes, with its final 0.
#define LONGEST 1024
// A digest of nothing.
#define NO_RESULT UINT64_C(0x243f6a8885a308d3)

struct name_space {
    const char *full, *label, *other;
};

extern const char BASE[57];
extern const struct name_space NAMESPACES[10];

// The next number of a seed, which is the first state.
uint64_t next_number(uint64_t *state);

// The digest with these bytes added. It is the hash of HashMap in iref_bench too.
uint64_t folded(uint64_t state, const char *bytes, size_t length);

// Each writes a text with a final 0, and returns its length: an item of `read`, a URL of `list`, a page and a link of `mirror`.
size_t put_item(char *to, int way, uint64_t item, uint64_t offset);
size_t put_url(char *to, uint64_t number);
size_t put_page(char *to, uint64_t page, uint64_t offset);
size_t put_link(char *to, uint64_t kind, uint64_t number);

#ifdef __cplusplus
}
#endif

#endif
