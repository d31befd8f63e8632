// What the jobs of crates/iref_bench read: the same texts of the same seeds. Their words stand in names.rt there.
#include "inputs.h"
#include <string.h>

static const char *const WORDS[64] = {
    "amber-", "birch-", "cedar-", "delta-", "ember-", "fjord-", "grove-", "heron-", "inlet-",
    "jetty-", "knoll-", "larch-", "mesa-", "north-", "otter-", "pine-", "quartz-", "reef-",
    "slate-", "tarn-", "umber-", "vale-", "willow-", "yarrow-", "zephyr-", "anchor-", "beacon-",
    "copper-", "dune-", "estuary-", "fern-", "granite-", "harbor-", "iris-", "juniper-", "kelp-",
    "lagoon-", "maple-", "nettle-", "oak-", "pebble-", "quill-", "raven-", "sedge-", "thistle-",
    "upland-", "violet-", "wharf-", "aspen-", "basalt-", "cliff-", "drift-", "elm-", "flint-",
    "gorse-", "hazel-", "island-", "jasmine-", "kestrel-", "lichen-", "marsh-", "nectar-", "orchid-",
    "poplar-",
};

static const char *const WIDE_WORDS[32] = {
    "日本語_", "東京都_", "大阪_", "山手線_", "横浜市_", "歴史_", "文化_",
    "新幹線_", "川崎_", "北海道_", "富士山_", "京都府_", "Россия_", "Москва_",
    "История_", "Библиотека_", "Волга_", "Сибирь_", "Наука_", "Поэзия_", "Театр_",
    "Музыка_", "भारत_", "दिल्ली_", "हिन्दी_", "इतिहास_", "गंगा_", "मुंबई_",
    "विज्ञान_", "संगीत_", "कविता_", "हिमालय_",
};

const char BASE[] = "http://data.example.org/library/2026/catalogue/index.ttl";

const struct name_space NAMESPACES[10] = {
    {"http://data.example.org/library/2026/catalogue/index.ttl#", "here", "#"},
    {"http://data.example.org/library/2026/catalogue/", "item", ""},
    {"http://data.example.org/library/people/", "person", "../../people/"},
    {"http://data.example.org/library/2026/places/", "place", "../places/"},
    {"http://www.w3.org/1999/02/22-rdf-syntax-ns#", "rdf", "HTTP://www.w3.org/1999/02/22-rdf-syntax-ns#"},
    {"http://www.w3.org/2000/01/rdf-schema#", "rdfs", "http://www.w3.org/2000/./01/rdf-schema#"},
    {"http://purl.org/dc/terms/", "dct", "http://purl.org/dc/elements/../terms/"},
    {"http://xmlns.com/foaf/0.1/", "foaf", "http://xmlns.com/foaf/0%2E1/"},
    {"https://schema.org/", "schema", "https://schema.org/./"},
    {"http://www.wikidata.org/entity/statement/", "wds", "http://www.wikidata.org/entity/statemen%74/"},
};

uint64_t next_number(uint64_t *state) {
    *state += 0x9e3779b97f4a7c15;
    uint64_t mixed = (*state ^ *state >> 30) * 0xbf58476d1ce4e5b9;
    mixed = (mixed ^ mixed >> 27) * 0x94d049bb133111eb;
    return mixed ^ mixed >> 31;
}

static uint64_t multiplied(uint64_t a, uint64_t b) {
    unsigned __int128 product = (unsigned __int128)a * b;
    return (uint64_t)product ^ (uint64_t)(product >> 64);
}

static uint64_t four(const char *bytes) {
    uint32_t read;
    memcpy(&read, bytes, 4);
    return read;
}

static uint64_t eight(const char *bytes) {
    uint64_t read;
    memcpy(&read, bytes, 8);
    return read;
}

uint64_t folded(uint64_t state, const char *bytes, size_t length) {
    const uint64_t multiplier = 0x9e3779b97f4a7c15;
    if (length <= 8) {
        uint64_t read = 0;
        if (length >= 4) {
            read = four(bytes) | four(bytes + length - 4) << 32;
        } else if (length > 0) {
            const unsigned char *each = (const unsigned char *)bytes;
            read = each[0] | (uint64_t)each[length / 2] << 8 | (uint64_t)each[length - 1] << 16;
        }
        return multiplied(state ^ read, multiplier ^ 2 * (uint64_t)length);
    }
    state += length;
    size_t at = 0;
    for (; length - at > 16; at += 16) {
        state = multiplied(eight(bytes + at) ^ state, eight(bytes + at + 8) ^ multiplier);
    }
    return multiplied(eight(bytes + (length > 16 ? length - 16 : 0)) ^ state, eight(bytes + length - 8) ^ multiplier);
}

static char *put_name(char *to, uint64_t number) {
    to = stpcpy(to, WORDS[number % 64]);
    to = stpcpy(to, WORDS[number / 64 % 64]);
    to = stpcpy(to, WORDS[number / 4096 % 64]);
    return number >= 262144 ? stpcpy(to, WORDS[number / 262144 % 64]) : to;
}

static char *put_path(char *to, uint64_t number) {
    to = stpcpy(stpcpy(to, WORDS[number / 512 % 64]), "/");
    to = stpcpy(stpcpy(to, WORDS[number / 8 % 64]), "/");
    return put_name(to, number);
}

static char *put_wide_name(char *to, uint64_t number) {
    to = stpcpy(to, WIDE_WORDS[number % 32]);
    to = stpcpy(to, WIDE_WORDS[number / 32 % 32]);
    to = stpcpy(to, WIDE_WORDS[number / 1024 % 32]);
    return stpcpy(to, WIDE_WORDS[number / 32768 % 32]);
}

size_t put_item(char *to, int way, uint64_t item, uint64_t offset) {
    const struct name_space *of = &NAMESPACES[item / 10 % 10];
    char *end = way == 1 ? stpcpy(stpcpy(to, of->label), ":") : stpcpy(to, way == 0 ? of->full : of->other);
    end = item % 10 == 3 ? put_wide_name(end, item + offset) : put_name(end, item + offset);
    return (size_t)(end - to);
}

size_t put_url(char *to, uint64_t number) {
    static const char *const ends[6][2] = {
        {"HTTPS://www.example.com/articles/2026/11/", ".html"},
        {"https://www.example.com/articles/./2026/11/", ".html"},
        {"https://www.example.com/articles/2026/1%31/", ".html"},
        {"https://www.example.com/articles/2026/11/", ".html?page=2"},
        {"https://images.example.com/2026/11/", ".png"},
        {"https://www.example.com/articles/2026/11/", ".html"},
    };
    uint64_t kind = number / 262144 % 8;
    const char *const *of = ends[kind < 5 ? kind : 5];
    return (size_t)(stpcpy(put_path(stpcpy(to, of[0]), number % 32768), of[1]) - to);
}

size_t put_page(char *to, uint64_t page, uint64_t offset) {
    char *end = put_path(stpcpy(to, "https://www.example.com/archive/"), page + offset);
    return (size_t)(stpcpy(end, "/index.html") - to);
}

size_t put_link(char *to, uint64_t kind, uint64_t number) {
    static const char *const ends[8][2] = {
        {"/archive/", ".html"},
        {"../", ".html?page=2&order=newest"},
        {"#", ""},
        {"//cdn.example.net/assets/", ".js"},
        {"https://www.example.com/archive/", "?id=1234&session=abcdef#top"},
        {"http://www.example.org/", "/"},
        {"notes%20and%20", "/caf%C3%A9.html"},
        {"./images/../../", "/./large.png"},
    };
    const char *const *of = ends[kind % 8];
    char *end = stpcpy(to, of[0]);
    end = kind % 8 == 2 ? put_name(end, number) : put_path(end, number);
    return (size_t)(stpcpy(end, of[1]) - to);
}
