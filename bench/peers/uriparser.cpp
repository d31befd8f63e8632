// The job `list` by uriparser, which reads URIs alone, and the links of `mirror`: it has no edits, and no hash.
#include "common.hpp"
#include <algorithm>
#include <uriparser/Uri.h>
#include <vector>

namespace {

struct Uri {
    UriUriA uri{};

    Uri() = default;
    explicit Uri(const char *text) {
        if (uriParseSingleUriA(&uri, text, nullptr) != URI_SUCCESS) fail("no URI");
    }
    Uri(const Uri &) = delete;
    Uri &operator=(const Uri &) = delete;
    ~Uri() { uriFreeUriMembersA(&uri); }

    std::string text() const {
        int length = 0;
        if (uriToStringCharsRequiredA(&uri, &length) != URI_SUCCESS) fail("no length");
        std::string text(static_cast<size_t>(length) + 1, 0);
        if (uriToStringA(text.data(), &uri, length + 1, nullptr) != URI_SUCCESS) fail("no text");
        text.pop_back();
        return text;
    }
};

struct Keyed {
    std::string key, text;
};

// Sorts these URLs by their normalized texts, and adds each that differs from the one before it.
void sort(uint64_t count, uint64_t &numbers, Digest &digest) {
    std::vector<Keyed> keyed;
    char text[LONGEST];
    for (uint64_t url = 0; url < count; url++) {
        put_url(text, next_number(&numbers));
        Uri uri(text);
        if (uriNormalizeSyntaxA(&uri.uri) != URI_SUCCESS) fail("no normal form");
        keyed.push_back({uri.text(), text});
    }
    std::stable_sort(keyed.begin(), keyed.end(), [](const Keyed &a, const Keyed &b) { return a.key < b.key; });
    const Keyed *last = nullptr;
    for (const Keyed &it : keyed) {
        if (!last || last->key != it.key) digest.text(it.text);
        last = &it;
    }
}

void list(uint64_t count, uint64_t seed, Digest &digest) {
    sort(count, seed, digest);
    sort(count, seed, digest);
}

void links(uint64_t count, uint64_t seed, Digest &digest) {
    uint64_t offset = next_number(&seed) % 65536;
    char text[LONGEST];
    for (uint64_t page = 0; page < count; page++) {
        char base_text[LONGEST];
        put_page(base_text, page, offset);
        Uri base(base_text);
        for (int number = 0; number < 100; number++) {
            uint64_t kind = next_number(&seed);
            put_link(text, kind, next_number(&seed));
            Uri link(text), target, relative;
            if (uriAddBaseUriA(&target.uri, &link.uri, &base.uri) != URI_SUCCESS) fail("no target");
            if (uriRemoveBaseUriA(&relative.uri, &target.uri, &base.uri, URI_FALSE) != URI_SUCCESS) fail("no reference");
            std::string whole = target.text(), shorter = relative.text();
            digest.text(whole);
            digest.text(shorter.compare(0, 2, "//") == 0 ? whole : shorter);
        }
    }
}

} // namespace

int main(int count, char **words) { return run(count, words, {{"list", list}, {"links", links}}); }
