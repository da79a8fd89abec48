// What a branch of yes pairs allows, with chains by union by size and their loads.
//
// usage: branch REQUIRED CAPACITY CALLS
//
// The streets are side by side, each of demand 1. The branch says yes to streets and the next ones, from every other street on,
// until all are one chain, and to the first pair once more. Each call makes the table of allowed pairs anew. It prints how many pairs with the first street are allowed, over
// all calls.
#include <cstdint>
#include <cstdio>
#include <cstdlib>
#include <numeric>
#include <utility>
#include <vector>

static uint32_t find(std::vector<uint32_t>& parent, uint32_t x) {
  while (parent[x] != x) x = parent[x] = parent[parent[x]];
  return x;
}

int main(int argc, char** argv) {
  if (argc != 4) return 2;
  const uint32_t m = std::atoi(argv[1]);
  const uint64_t capacity = std::atoll(argv[2]);
  const uint64_t calls = std::atoll(argv[3]);
  std::vector<std::pair<uint32_t, uint32_t>> yes;
  for (uint32_t i = 0; i < m; i++) {
    const uint32_t a = 2 * i % (m - 1);
    yes.push_back({a, a + 1});
  }
  uint64_t count = 0;
  for (uint64_t call = 0; call < calls; call++) {
    std::vector<uint32_t> parent(m), degree(m, 0);
    std::vector<uint64_t> load(m, 1);
    std::vector<char> is_yes(size_t(m) * m, 0), allowed(size_t(m) * m, 1);
    std::iota(parent.begin(), parent.end(), 0);
    for (auto [a, b] : yes) {
      if (is_yes[size_t(a) * m + b]) continue;
      is_yes[size_t(a) * m + b] = is_yes[size_t(b) * m + a] = 1;
      degree[a]++;
      degree[b]++;
      uint32_t x = find(parent, a), y = find(parent, b);
      if (x == y) continue;
      if (load[x] < load[y]) std::swap(x, y);
      parent[y] = x;
      load[x] += load[y];
    }
    std::vector<uint32_t> chain(m);
    for (uint32_t a = 0; a < m; a++) chain[a] = find(parent, a);
    for (uint32_t a = 0; a < m; a++)
      for (uint32_t b = 0; b <= a; b++) {
        const bool joined = is_yes[size_t(a) * m + b];
        const uint32_t x = chain[a], y = chain[b];
        const bool full = degree[a] - joined >= 2 || degree[b] - joined >= 2;
        const bool closes = x == y && degree[a] <= 1 && degree[b] <= 1 && !joined;
        const bool heavy = x != y && load[x] + load[y] > capacity;
        if (a == b || full || closes || heavy) allowed[size_t(a) * m + b] = allowed[size_t(b) * m + a] = 0;
      }
    for (uint32_t b = 1; b < m; b++) count += allowed[b];
  }
  std::printf("value %llu\n", static_cast<unsigned long long>(count));
}
