// The job `read`, and the links of `mirror`, by Serd. It tests no text, removes dots at the beginning of a path alone, and
// has no edits. Keys are its texts.
#include "common.hpp"
#include <serd/serd.h>

namespace {

const uint8_t *bytes(const char *text) { return reinterpret_cast<const uint8_t *>(text); }

size_t append(const void *bytes, size_t length, void *text) {
    static_cast<std::string *>(text)->append(static_cast<const char *>(bytes), length);
    return length;
}

SerdURI parsed(const char *text) {
    SerdURI uri;
    if (serd_uri_parse(bytes(text), &uri) != SERD_SUCCESS) fail("no URI");
    return uri;
}

std::string resolved(const char *text, const SerdURI &base) {
    SerdURI reference = parsed(text), target;
    serd_uri_resolve(&reference, &base, &target);
    std::string written;
    serd_uri_serialise(&target, append, &written);
    return written;
}

std::string expanded(const char *text, const SerdEnv *prefixes) {
    SerdNode node = serd_node_from_string(SERD_CURIE, bytes(text));
    SerdChunk prefix, suffix;
    if (serd_env_expand(prefixes, &node, &prefix, &suffix) != SERD_SUCCESS) fail("no prefix");
    std::string written;
    append(prefix.buf, prefix.len, &written);
    append(suffix.buf, suffix.len, &written);
    return written;
}

void read(uint64_t count, uint64_t seed, Digest &digest) {
    SerdEnv *prefixes = serd_env_new(nullptr);
    for (const name_space &it : NAMESPACES) serd_env_set_prefix_from_strings(prefixes, bytes(it.label), bytes(it.full));
    SerdURI base = parsed(BASE);
    uint64_t offset = next_number(&seed) % 65536;
    Seen seen;
    char text[LONGEST];
    for (int way = 0; way < 3; way++) {
        for (uint64_t item = 0; item < count; item++) {
            put_item(text, way, item, offset);
            if (way == 0) parsed(text);
            std::string iri = way == 0 ? std::string(text) : way == 1 ? expanded(text, prefixes) : resolved(text, base);
            digest.text(iri);
            digest.number(seen.try_emplace(std::move(iri), item).first->second);
        }
    }
    serd_env_free(prefixes);
}

void links(uint64_t count, uint64_t seed, Digest &digest) {
    uint64_t offset = next_number(&seed) % 65536;
    char text[LONGEST], base_text[LONGEST];
    for (uint64_t page = 0; page < count; page++) {
        put_page(base_text, page, offset);
        SerdURI base = parsed(base_text);
        for (int number = 0; number < 100; number++) {
            uint64_t kind = next_number(&seed);
            put_link(text, kind, next_number(&seed));
            std::string target = resolved(text, base), relative;
            SerdURI uri = parsed(target.c_str());
            serd_uri_serialise_relative(&uri, &base, nullptr, append, &relative);
            digest.text(target);
            digest.text(relative);
        }
    }
}

} // namespace

int main(int count, char **words) { return run(count, words, {{"read", read}, {"links", links}}); }
