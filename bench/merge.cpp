// A yardstick: the exclusive or of two ascending lists of rows of three numbers, as one merge loop with reserved room.
//
//     merge FIRST.evm SECOND.evm CALLS      prints the number of rows of the answer and the seconds of one call, the best of all
#include <chrono>
#include <cstdint>
#include <cstdio>
#include <cstdlib>
#include <fstream>
#include <iterator>
#include <vector>

using Rows = std::vector<int32_t>;

// The rows of an EVM file of dimension 3, whose numbers have the most significant byte first.
Rows rows_of(const char *name) {
    std::ifstream file(name, std::ios::binary);
    std::vector<unsigned char> bytes((std::istreambuf_iterator<char>(file)), std::istreambuf_iterator<char>());
    Rows rows;
    for (size_t at = 16; at + 4 <= bytes.size(); at += 4)
        rows.push_back(int32_t(uint32_t(bytes[at]) << 24 | uint32_t(bytes[at + 1]) << 16 | uint32_t(bytes[at + 2]) << 8 | bytes[at + 3]));
    return rows;
}

int compare(const int32_t *a, const int32_t *b) {
    for (int i = 0; i < 3; i++)
        if (a[i] != b[i]) return a[i] < b[i] ? -1 : 1;
    return 0;
}

Rows exclusive_or(const Rows &a, const Rows &b) {
    Rows out;
    out.reserve(a.size() + b.size());
    size_t i = 0, j = 0;
    while (i < a.size() && j < b.size()) {
        int order = compare(&a[i], &b[j]);
        if (order < 0) out.insert(out.end(), &a[i], &a[i] + 3);
        if (order > 0) out.insert(out.end(), &b[j], &b[j] + 3);
        i += order <= 0 ? 3 : 0;
        j += order >= 0 ? 3 : 0;
    }
    out.insert(out.end(), a.begin() + i, a.end());
    out.insert(out.end(), b.begin() + j, b.end());
    return out;
}

int main(int, char **words) {
    Rows a = rows_of(words[1]), b = rows_of(words[2]);
    double best = 1e9;
    size_t rows = 0;
    for (int call = 0; call < atoi(words[3]); call++) {
        auto start = std::chrono::steady_clock::now();
        Rows out = exclusive_or(a, b);
        std::chrono::duration<double> time = std::chrono::steady_clock::now() - start;
        rows = out.size() / 3;
        if (time.count() < best) best = time.count();
    }
    printf("%zu %.9f\n", rows, best);
}
