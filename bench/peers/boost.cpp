// The job `list` by Boost.URL, which compares as `iref` does: by what a normal form would be, without one.
#include "common.hpp"
#include <algorithm>
#include <boost/url.hpp>
#include <vector>

namespace {

namespace urls = boost::urls;

std::vector<std::string> texts(uint64_t count, uint64_t &numbers) {
    std::vector<std::string> texts;
    char text[LONGEST];
    for (uint64_t url = 0; url < count; url++) {
        put_url(text, next_number(&numbers));
        texts.push_back(text);
    }
    return texts;
}

// Sorts these URLs, and adds each that differs from the one before it.
template <typename Url> void sort(const std::vector<std::string> &texts, Digest &digest) {
    std::vector<Url> sorted;
    for (const std::string &text : texts) sorted.push_back(Url(urls::parse_uri(text).value()));
    std::stable_sort(sorted.begin(), sorted.end(), [](const Url &a, const Url &b) { return a.compare(b) < 0; });
    const Url *last = nullptr;
    for (const Url &it : sorted) {
        if (!last || last->compare(it) != 0) digest.text(std::string_view(it.buffer().data(), it.buffer().size()));
        last = &it;
    }
}

void list(uint64_t count, uint64_t seed, Digest &digest) {
    sort<urls::url>(texts(count, seed), digest);
    sort<urls::url_view>(texts(count, seed), digest);
}

} // namespace

int main(int count, char **words) { return run(count, words, {{"list", list}}); }
