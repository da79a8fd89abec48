// Least perfect matchings by LEMON (Debian's liblemon-dev), on complete graphs of points in the plane.
//
// usage: matching
//
// The points: x starts at their number, and each draw sets x to 6364136223846793005 * x + 1442695040888963407 modulo 2^64 and
// gives x / 4; each point has two draws modulo 10,000 as its coordinates. A pair costs its distance, rounded up. For 100, 300
// and 1,000 points the program prints twice the cost of a least perfect matching, and the microseconds that it took.
#include <chrono>
#include <cstdint>
#include <cstdio>
#include <cstdlib>
#include <lemon/full_graph.h>
#include <lemon/matching.h>
#include <vector>

static uint64_t draw(uint64_t &x) {
  x = 6364136223846793005u * x + 1442695040888963407u;
  return x / 4;
}

static int64_t root(uint64_t square) {
  uint64_t low = 0, high = 1 << 17;
  while (low < high) {
    uint64_t middle = (low + high) / 2;
    if (middle * middle < square) low = middle + 1;
    else high = middle;
  }
  return static_cast<int64_t>(high);
}

static int64_t distance(uint64_t a, uint64_t b) { return static_cast<int64_t>(a > b ? a - b : b - a); }

int main() {
  for (int size : {100, 300, 1000}) {
    uint64_t state = static_cast<uint64_t>(size);
    std::vector<uint64_t> x(size), y(size);
    for (int i = 0; i < size; i++) {
      x[i] = draw(state) % 10000;
      y[i] = draw(state) % 10000;
    }
    std::vector<int64_t> cost(static_cast<size_t>(size) * size);
    for (int i = 0; i < size; i++) {
      for (int j = 0; j < size; j++) {
        int64_t dx = distance(x[i], x[j]), dy = distance(y[i], y[j]);
        cost[static_cast<size_t>(i) * size + j] = root(static_cast<uint64_t>(dx * dx + dy * dy));
      }
    }
    auto start = std::chrono::steady_clock::now();
    lemon::FullGraph graph(size);
    lemon::FullGraph::EdgeMap<int64_t> weight(graph);
    for (lemon::FullGraph::EdgeIt e(graph); e != lemon::INVALID; ++e) {
      weight[e] = -cost[static_cast<size_t>(graph.index(graph.u(e))) * size + graph.index(graph.v(e))];
    }
    lemon::MaxWeightedPerfectMatching<lemon::FullGraph, lemon::FullGraph::EdgeMap<int64_t>> matching(graph, weight);
    if (!matching.run()) return 1;
    auto taken = std::chrono::steady_clock::now() - start;
    printf("%d %lld %lld\n", size, static_cast<long long>(-2 * matching.matchingWeight()),
           static_cast<long long>(std::chrono::duration_cast<std::chrono::microseconds>(taken).count()));
  }
}
