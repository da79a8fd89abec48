// A least perfect matching of the odd vertices of an instance under their distances, by LEMON (Debian's liblemon-dev).
//
// usage: join FILE
//
// It prints the number of vertices, twice the cost of the matching, and the microseconds of the matching alone, without the table of
// distances.
#include "reader.hpp"
#include <chrono>
#include <lemon/full_graph.h>
#include <lemon/matching.h>
#include <queue>

int main(int count, char **words) {
  if (count != 2) return 1;
  Instance instance = Reader().read(bytes_of(words[1]));
  size_t n = instance.vertices;
  std::vector<std::vector<std::pair<size_t, int64_t>>> next(n + 1);
  std::vector<bool> odd(n + 1);
  for (size_t i = 0; i < instance.edges.size(); i++) {
    const Edge &edge = instance.edges[i];
    next[edge.u].push_back({edge.v, static_cast<int64_t>(edge.cost)});
    next[edge.v].push_back({edge.u, static_cast<int64_t>(edge.cost)});
    if (i < instance.required) {
      odd[edge.u] = !odd[edge.u];
      odd[edge.v] = !odd[edge.v];
    }
  }
  std::vector<size_t> members;
  for (size_t v = 1; v <= n; v++)
    if (odd[v]) members.push_back(v);
  size_t size = members.size();
  std::vector<int64_t> cost(size * size);
  const int64_t far = INT64_MAX / 4;
  for (size_t i = 0; i < size; i++) {
    std::vector<int64_t> label(n + 1, far);
    using Entry = std::pair<int64_t, size_t>;
    std::priority_queue<Entry, std::vector<Entry>, std::greater<Entry>> queue;
    label[members[i]] = 0;
    queue.push({0, members[i]});
    while (!queue.empty()) {
      auto [at, v] = queue.top();
      queue.pop();
      if (at > label[v]) continue;
      for (auto [w, c] : next[v])
        if (at + c < label[w]) {
          label[w] = at + c;
          queue.push({label[w], w});
        }
    }
    for (size_t j = 0; j < size; j++) cost[i * size + j] = label[members[j]];
  }
  auto start = std::chrono::steady_clock::now();
  lemon::FullGraph graph(static_cast<int>(size));
  lemon::FullGraph::EdgeMap<int64_t> weight(graph);
  for (lemon::FullGraph::EdgeIt e(graph); e != lemon::INVALID; ++e)
    weight[e] = -cost[static_cast<size_t>(graph.index(graph.u(e))) * size + static_cast<size_t>(graph.index(graph.v(e)))];
  lemon::MaxWeightedPerfectMatching<lemon::FullGraph, lemon::FullGraph::EdgeMap<int64_t>> matching(graph, weight);
  if (!matching.run()) return 1;
  auto taken = std::chrono::steady_clock::now() - start;
  std::printf("%zu %lld %lld\n", n, static_cast<long long>(-2 * matching.matchingWeight()),
              static_cast<long long>(std::chrono::duration_cast<std::chrono::microseconds>(taken).count()));
}
