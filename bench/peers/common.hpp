// What the programs in C++ of this folder have in common.
#ifndef COMMON_HPP
#define COMMON_HPP

#include "inputs.h"
#include <cstdio>
#include <cstdlib>
#include <cstring>
#include <string>
#include <string_view>
#include <unordered_map>

// One number for all results.
class Digest {
    uint64_t state = NO_RESULT;

  public:
    void text(std::string_view text) { state = folded(state, text.data(), text.size()); }
    void number(uint64_t number) { state = folded(state, reinterpret_cast<const char *>(&number), sizeof number); }
    uint64_t finish() const { return state; }
};

// The hash of a text, as in the maps of iref_bench.
struct Hashes {
    size_t operator()(std::string_view text) const { return folded(NO_RESULT, text.data(), text.size()); }
};

using Seen = std::unordered_map<std::string, uint64_t, Hashes>;

[[noreturn]] inline void fail(const char *what) {
    std::fprintf(stderr, "%s\n", what);
    std::exit(1);
}

struct Job {
    const char *name;
    void (*run)(uint64_t count, uint64_t seed, Digest &digest);
};

// Does the job that the words name: JOB COUNT SEED.
template <size_t N> int run(int count, char **words, const Job (&jobs)[N]) {
    if (count != 4) fail("JOB COUNT SEED");
    for (const Job &job : jobs) {
        if (std::strcmp(job.name, words[1]) != 0) continue;
        Digest digest;
        job.run(std::strtoull(words[2], nullptr, 10), std::strtoull(words[3], nullptr, 10), digest);
        std::printf("%s %016llx\n", job.name, static_cast<unsigned long long>(digest.finish()));
        return 0;
    }
    fail("no such job");
}

#endif
