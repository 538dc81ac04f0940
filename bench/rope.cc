// libstdc++'s rope, with those works of `tree_bench rope` of `crates/tree_bench` that it can do: usage: rope BYTES COUNT
#include <ext/rope>

#include <algorithm>
#include <chrono>
#include <cstdint>
#include <cstdio>
#include <cstdlib>
#include <cstring>
#include <string>

using __gnu_cxx::crope;
using Clock = std::chrono::steady_clock;

static uint64_t step(uint64_t x) { return x * 6364136223846793005u + 1442695040888963407u; }

static const char* const SHORT[8] = {"a", "bc", "d\ne", "fghi", "jklmn", "opqrst", "uvw\nxyz", "abcdefgh"};

static std::string long_text(uint64_t bytes) {
    std::string text;
    uint64_t x = 1;
    for (uint64_t i = 0; i < bytes; i++) {
        x = step(x);
        text.push_back((x >> 20) % 60 == 0 ? '\n' : char('a' + (x >> 40) % 26));
    }
    return text;
}

static void report(const char* name, Clock::time_point start, uint64_t answer) {
    auto time = std::chrono::duration_cast<std::chrono::microseconds>(Clock::now() - start).count();
    printf("%s %llu %lld\n", name, (unsigned long long)answer, (long long)time);
}

struct Range {
    uint64_t start, end;
};

static Range range(const crope& rope, uint64_t x, uint64_t most) {
    uint64_t len = rope.size(), start = (x >> 20) % (len + 1);
    return {start, std::min(len, start + (x >> 8) % most)};
}

static void replace(crope& rope, uint64_t x) {
    Range r = range(rope, x, 9);
    const char* text = SHORT[(x >> 32) % 8];
    rope.replace(r.start, r.end - r.start, text, strlen(text));
}

int main(int, char** words) {
    uint64_t bytes = strtoull(words[1], nullptr, 10), n = strtoull(words[2], nullptr, 10);
    std::string text = long_text(bytes);
    auto start = Clock::now();
    crope rope;
    for (uint64_t i = 0; i < bytes; i += 4096) rope.append(text.data() + i, std::min<uint64_t>(4096, bytes - i));
    report("Build", start, rope.size());

    start = Clock::now();
    uint64_t sum = 0, x = 1, most = std::max<uint64_t>(rope.size() / 2, 1);
    crope whole;
    for (uint64_t i = 0; i < n / 2; i++) {
        x = step(x);
        Range r = range(rope, x, most);
        whole.append(rope.substr(r.start, r.end - r.start));
        sum += whole.size();
        if (whole.size() >= rope.size()) whole = crope();
    }
    report("Slices", start, sum);

    start = Clock::now();
    sum = 0;
    for (uint64_t i = 0; i < n / 2; i++) {
        crope shared(rope);
        sum += shared.size();
    }
    report("Shares", start, sum);

    start = Clock::now();
    whole = rope;
    x = 1;
    for (uint64_t i = 0; i < n; i++) {
        x = step(x);
        Range r = range(whole, x, 9);
        crope front = whole.substr(0, r.start);
        front.append(SHORT[(x >> 32) % 8]);
        front.append(whole.substr(r.end, whole.size() - r.end));
        whole = front;
    }
    report("Parts", start, whole.size());
    whole = crope();

    start = Clock::now();
    x = 1;
    for (uint64_t i = 0; i < n; i++) {
        x = step(x);
        replace(rope, x);
    }
    report("Replaces", start, rope.size());

    start = Clock::now();
    sum = 0;
    x = 5;
    for (uint64_t i = 0; i < n; i++) {
        x = step(x);
        crope old(rope);
        replace(rope, x);
        sum += old.size();
    }
    report("ShareReplaces", start, sum);
}
