// A greatest flow by Dinic's method, and a least cut that shows that it is one, on a network that a linear congruence makes.
//
// usage: flow [NODES ARCS SEED], by default 2000 20000 1
//
// The network: x starts at SEED, and each draw sets x to 6364136223846793005 * x + 1442695040888963407 modulo 2^64 and gives
// the upper 62 bits of x, which is x / 4. For each arc in turn three draws a, b, c: it leads from node 1 + a mod NODES, over as
// many nodes as 1 + b mod (NODES - 1) counting on from there and from the last node to the first, to another node, and its
// room is c mod (10^18 + 1). The source is node 1, the target node NODES.
#include <algorithm>
#include <cstdint>
#include <cstdio>
#include <cstdlib>
#include <string>
#include <vector>

using Wide = unsigned __int128;

constexpr uint64_t MOST_ROOM = 1000000000000000000;

struct Arc {
  uint32_t from, to;
  uint64_t room;
};

class Draws {
public:
  explicit Draws(uint64_t seed) : x(seed) {}

  uint64_t next() {
    x = 6364136223846793005u * x + 1442695040888963407u;
    return x / 4;
  }

private:
  uint64_t x;
};

// Nodes are numbered from 0 here.
static std::vector<Arc> network(uint32_t nodes, uint32_t count, uint64_t seed) {
  Draws draws(seed);
  std::vector<Arc> arcs;
  for (uint32_t i = 0; i < count; i++) {
    uint64_t a = draws.next(), b = draws.next(), c = draws.next();
    uint64_t from = a % nodes, to = (from + 1 + b % (nodes - 1)) % nodes;
    arcs.push_back({static_cast<uint32_t>(from), static_cast<uint32_t>(to), c % (MOST_ROOM + 1)});
  }
  return arcs;
}

class Dinic {
public:
  Dinic(uint32_t nodes, const std::vector<Arc> &arcs, uint32_t source, uint32_t target)
      : source(source), target(target), links(nodes), layer(nodes), next(nodes) {
    for (const Arc &arc : arcs) {
      links[arc.from].push_back(static_cast<uint32_t>(ends.size()));
      ends.push_back({arc.to, arc.room});
      links[arc.to].push_back(static_cast<uint32_t>(ends.size()));
      ends.push_back({arc.from, 0});
    }
  }

  Wide value() {
    Wide sum = 0;
    while (lay()) {
      std::fill(next.begin(), next.end(), 0);
      while (uint64_t more = push(source, UINT64_MAX)) sum += more;
    }
    return sum;
  }

  // After value(): whether the residual network leads from the source to the node.
  bool is_near(uint32_t node) const { return layer[node] != NEVER; }

private:
  static constexpr uint32_t NEVER = UINT32_MAX;

  // The residual arcs; those of an arc stand beside each other.
  struct End {
    uint32_t to;
    uint64_t left;
  };

  uint32_t source, target;
  std::vector<End> ends;
  std::vector<std::vector<uint32_t>> links;
  std::vector<uint32_t> layer;
  std::vector<size_t> next;

  bool lay() {
    std::fill(layer.begin(), layer.end(), NEVER);
    std::vector<uint32_t> queue{source};
    layer[source] = 0;
    for (size_t i = 0; i < queue.size(); i++) {
      for (uint32_t link : links[queue[i]]) {
        const End &end = ends[link];
        if (end.left == 0 || layer[end.to] != NEVER) continue;
        layer[end.to] = layer[queue[i]] + 1;
        queue.push_back(end.to);
      }
    }
    return layer[target] != NEVER;
  }

  uint64_t push(uint32_t at, uint64_t most) {
    if (at == target) return most;
    for (size_t &i = next[at]; i < links[at].size(); i++) {
      uint32_t link = links[at][i];
      End &end = ends[link];
      if (end.left == 0 || layer[end.to] != layer[at] + 1) continue;
      if (uint64_t pushed = push(end.to, std::min(most, end.left))) {
        end.left -= pushed;
        ends[link ^ 1].left += pushed;
        return pushed;
      }
    }
    return 0;
  }
};

static std::string decimal(Wide value) {
  std::string digits;
  do {
    digits.insert(digits.begin(), static_cast<char>('0' + static_cast<int>(value % 10)));
    value /= 10;
  } while (value != 0);
  return digits;
}

int main(int argc, char **argv) {
  if (argc != 1 && argc != 4) {
    std::fprintf(stderr, "usage: flow [NODES ARCS SEED]\n");
    return 3;
  }
  uint32_t nodes = argc == 4 ? static_cast<uint32_t>(std::strtoul(argv[1], nullptr, 10)) : 2000;
  uint32_t count = argc == 4 ? static_cast<uint32_t>(std::strtoul(argv[2], nullptr, 10)) : 20000;
  uint64_t seed = argc == 4 ? std::strtoull(argv[3], nullptr, 10) : 1;
  if (nodes < 2) {
    std::fprintf(stderr, "flow: NODES is less than 2\n");
    return 3;
  }

  std::vector<Arc> arcs = network(nodes, count, seed);
  Dinic dinic(nodes, arcs, 0, nodes - 1);
  Wide value = dinic.value(), cut = 0;
  for (const Arc &arc : arcs)
    if (dinic.is_near(arc.from) && !dinic.is_near(arc.to)) cut += arc.room;
  if (cut != value) {
    std::fprintf(stderr, "flow: the cut is %s and the value %s\n", decimal(cut).c_str(), decimal(value).c_str());
    return 1;
  }
  std::printf("value %s\n", decimal(value).c_str());
}
