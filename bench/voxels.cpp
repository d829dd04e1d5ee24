// A yardstick: the script language over dense arrays of cells in space, one byte a cell, in a cube whose side is given.
//
//     voxels SIDE < SCRIPT
//
// It answers what the scripts of run.py ask: input, toggle, add, cut, def (or, and, sub, xor, proj along 3, shift), load of a PGM stack,
// content, boundary, and report of an input. An edit looks at the cells of its box alone, and so does each formula over it. Nothing is checked: all
// lines are taken to be well formed and all cells to lie in the cube (those that a shift would move out of it are lost).
#include <algorithm>
#include <cstdint>
#include <cstdio>
#include <cstdlib>
#include <fstream>
#include <iostream>
#include <map>
#include <sstream>
#include <string>
#include <vector>

using std::string;

struct Box {
    int low[3] = {0, 0, 0}, high[3] = {0, 0, 0};
    bool empty() const { return low[0] >= high[0] || low[1] >= high[1] || low[2] >= high[2]; }
};

struct Solid {
    char kind = 'i';  // i an input, and of the formulas o or, a and, s sub, x xor, p proj, m shift (moved)
    int first = -1, second = -1;
    int by[3] = {0, 0, 0};
    std::vector<uint8_t> cells;  // x fastest; a projection has its cells in the layer z = 0
    Box changed;
};

int side;
std::vector<Solid> solids;
std::map<string, int> numbers;

size_t place(int x, int y, int z) { return (size_t(z) * side + y) * side + x; }

Box joined(const Box &a, const Box &b) {
    if (a.empty()) return b;
    if (b.empty()) return a;
    Box box;
    for (int i = 0; i < 3; i++) box.low[i] = std::min(a.low[i], b.low[i]), box.high[i] = std::max(a.high[i], b.high[i]);
    return box;
}

// Where a formula may change if its operands change in the boxes a and b: moved or flattened as the formula does it.
Box reach(const Solid &s, const Box &a, const Box &b) {
    Box box = joined(a, b);
    if (s.kind == 'p' && !box.empty()) box.low[2] = 0, box.high[2] = 1;
    if (s.kind == 'm')
        for (int i = 0; i < 3; i++) box.low[i] = std::max(0, box.low[i] + s.by[i]), box.high[i] = std::min(side, box.high[i] + s.by[i]);
    return box;
}

// Puts new cells into a box of a solid, each from its place and its old value, and notes the box as changed if any cell is another one.
template <class New>
bool put(Solid &s, const Box &box, New cell) {
    uint8_t any = 0;
    for (int z = box.low[2]; z < box.high[2]; z++)
        for (int y = box.low[1]; y < box.high[1]; y++)
            for (size_t k = place(box.low[0], y, z), end = place(box.high[0], y, z); k < end; k++) {
                uint8_t now = cell(k, s.cells[k]);
                any |= s.cells[k] ^ now;
                s.cells[k] = now;
            }
    s.changed = any ? box : Box();
    return any;
}

bool evaluate(Solid &s, const Box &box) {
    const uint8_t *a = solids[s.first].cells.data(), *b = s.second >= 0 ? solids[s.second].cells.data() : a;
    const ptrdiff_t by = (ptrdiff_t(s.by[2]) * side + s.by[1]) * side + s.by[0];
    const size_t layer = size_t(side) * side, all = layer * side;
    switch (s.kind) {
        case 'o': return put(s, box, [=](size_t k, uint8_t) { return uint8_t(a[k] | b[k]); });
        case 'a': return put(s, box, [=](size_t k, uint8_t) { return uint8_t(a[k] & b[k]); });
        case 's': return put(s, box, [=](size_t k, uint8_t) { return uint8_t(a[k] & ~b[k]); });
        case 'x': return put(s, box, [=](size_t k, uint8_t) { return uint8_t(a[k] ^ b[k]); });
        case 'm': return put(s, box, [=](size_t k, uint8_t) { return a[k - by]; });
    }
    return put(s, box, [=](size_t k, uint8_t) {
        uint8_t any = 0;
        for (size_t at = k; at < all; at += layer) any |= a[at];
        return any;
    });
}

// After an edit of one input: the formulas that follow it, in the order of their making.
int follow(int edited, bool any) {
    int count = any;
    for (size_t k = 0; k < solids.size(); k++) {
        if (int(k) == edited) continue;
        Solid &s = solids[k];
        s.changed = Box();
        if (!any || s.kind == 'i') continue;
        Box box = reach(s, solids[s.first].changed, s.second >= 0 ? solids[s.second].changed : Box());
        if (!box.empty()) count += evaluate(s, box);
    }
    return count;
}

long content(const Solid &s) {
    long sum = 0;
    for (uint8_t cell : s.cells) sum += cell;
    return sum;
}

// The faces between a cell and an empty place: on each axis the neighbours that differ, and the cells at both walls of the cube.
long boundary(const Solid &s) {
    const uint8_t *a = s.cells.data();
    const bool flat = s.kind == 'p';
    const int depth = flat ? 1 : side;
    const size_t layer = size_t(side) * side;
    long faces = 0;
    for (int z = 0; z < depth; z++)
        for (int y = 0; y < side; y++) {
            const uint8_t *row = a + place(0, y, z);
            int sum = row[0] + row[side - 1];
            for (int x = 0; x + 1 < side; x++) sum += row[x] ^ row[x + 1];
            for (int x = 0; x < side; x++) {
                sum += (y == 0 ? row[x] : 0) + (y + 1 == side ? row[x] : row[x] ^ row[x + side]);
                if (!flat) sum += (z == 0 ? row[x] : 0) + (z + 1 == depth ? row[x] : row[x] ^ row[x + layer]);
            }
            faces += sum;
        }
    return faces;
}

// The sets of cells that hang together by faces: each cell joins the sets of its neighbours just below it.
int parts(const Solid &s) {
    std::vector<int> parent(s.cells.size());
    auto top = [&](int k) {
        while (parent[k] != k) k = parent[k] = parent[parent[k]];
        return k;
    };
    int count = 0;
    const int steps[3] = {1, side, side * side};
    for (int z = 0, k = 0; z < side; z++)
        for (int y = 0; y < side; y++)
            for (int x = 0; x < side; x++, k++) {
                if (!s.cells[k]) continue;
                parent[k] = k;
                count++;
                const int at[3] = {x, y, z};
                for (int i = 0; i < 3; i++) {
                    if (!at[i] || !s.cells[k - steps[i]]) continue;
                    int a = top(k), b = top(k - steps[i]);
                    if (a != b) parent[std::max(a, b)] = std::min(a, b), count--;
                }
            }
    return count;
}

// The points round which an odd number of cells stand.
long vertices(const Solid &s) {
    long count = 0;
    auto cell = [&](int x, int y, int z) { return x < 0 || y < 0 || z < 0 || x == side || y == side || z == side ? 0 : s.cells[place(x, y, z)]; };
    for (int z = 0; z <= side; z++)
        for (int y = 0; y <= side; y++) {
            int before = 0;
            for (int x = 0; x <= side; x++) {
                int now = cell(x, y, z) ^ cell(x, y - 1, z) ^ cell(x, y, z - 1) ^ cell(x, y - 1, z - 1);
                count += before ^ now;
                before = now;
            }
        }
    return count;
}

void report(const Solid &s, const string &name) {
    Box box;
    for (int &low : box.low) low = side;
    for (int z = 0; z < side; z++)
        for (int y = 0; y < side; y++)
            for (int x = 0; x < side; x++) {
                if (!s.cells[place(x, y, z)]) continue;
                const int at[3] = {x, y, z};
                for (int i = 0; i < 3; i++) box.low[i] = std::min(box.low[i], at[i]), box.high[i] = std::max(box.high[i], at[i] + 1);
            }
    printf("ok {\"boundary\":\"%ld\",\"content\":\"%ld\",\"dim\":3,\"high\":[%d,%d,%d],\"kind\":\"input\",\"low\":[%d,%d,%d],"
           "\"name\":\"%s\",\"operands\":[],\"parts\":%d,\"vertices\":%ld}\n",
           boundary(s), content(s), box.high[0], box.high[1], box.high[2], box.low[0], box.low[1], box.low[2], name.c_str(), parts(s), vertices(s));
}

// A PGM stack of one byte a sample, as other programs write it: no comments, one white space byte between the words.
void load(Solid &s, int threshold, const string &name) {
    std::ifstream file(name, std::ios::binary | std::ios::ate);
    std::vector<char> bytes(size_t(file.tellg()) + 1);  // a 0 at the end, for sscanf
    const size_t length = bytes.size() - 1;
    file.seekg(0).read(bytes.data(), length);
    size_t at = 0;
    for (int z = 0; at < length; z++) {
        int width, height, most, used;
        char head[64];
        snprintf(head, sizeof head, "%.63s", bytes.data() + at);
        if (sscanf(head, "P5 %d %d %d%n", &width, &height, &most, &used) != 3) abort();
        at += used + 1;
        for (int y = 0; y < height; y++, at += width) {
            const uint8_t *samples = reinterpret_cast<const uint8_t *>(bytes.data()) + at;
            uint8_t *row = s.cells.data() + place(0, y, z);
            for (int x = 0; x < width; x++) row[x] = samples[x] >= threshold;
        }
    }
}

int make(const string &kind, std::istringstream &in) {
    Solid s;
    s.cells.assign(size_t(side) * side * side, 0);
    string operand;
    Box all;
    for (int i = 0; i < 3; i++) all.high[i] = side;
    if (kind != "input") {
        s.kind = kind == "shift" ? 'm' : kind[0];
        in >> operand;
        s.first = numbers[operand];
        if (s.kind == 'm') in >> s.by[0] >> s.by[1] >> s.by[2];
        else if (s.kind != 'p' && in >> operand) s.second = numbers[operand];
        evaluate(s, reach(s, all, Box()));
    }
    solids.push_back(std::move(s));
    return int(solids.size()) - 1;
}

int main(int, char **words) {
    side = atoi(words[1]);
    string line, command, name, word;
    while (std::getline(std::cin, line)) {
        std::istringstream in(line);
        in >> command >> name;
        if (command == "input") {
            numbers[name] = make(command, in);
            puts("ok 0");
        } else if (command == "def") {
            in >> word;
            numbers[name] = make(word, in);
            puts("ok 0");
        } else if (command == "content" || command == "boundary") {
            const Solid &s = solids[numbers[name]];
            printf("ok %ld\n", command == "content" ? content(s) : boundary(s));
        } else if (command == "report") {
            report(solids[numbers[name]], name);
        } else if (command == "load") {
            int threshold;
            in >> word >> threshold >> word;
            Solid &s = solids[numbers[name]];
            load(s, threshold, word);
            printf("ok %d\n", content(s) > 0);
        } else {
            Box box;
            for (int &bound : box.low) in >> bound;
            for (int &bound : box.high) in >> bound;
            const uint8_t full = command == "add", flip = command == "toggle";
            int k = numbers[name];
            bool any = put(solids[k], box, [=](size_t, uint8_t old) { return uint8_t(flip ? !old : full); });
            printf("ok %d\n", follow(k, any));
        }
    }
}
