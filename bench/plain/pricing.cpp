// The least relaxed tour of a made town by a table over load and last task, with two labels a vertex that are carried over the streets.
//
// usage: pricing COLUMNS ROWS STREETS REQUIRED CAPACITY FILLS GROUPS
//
// The town: COLUMNS * ROWS corners, numbered from 1 along the rows, with a street from each to the next of its row and to that
// below. x starts at 1, and each draw sets x to 6364136223846793005 * x + 1442695040888963407 modulo 2^64 and gives x / 2^33. Where
// STREETS is more, further streets follow, each with a drawn corner u and one of the other corners. First
// as many streets as are to be served, and then the others, in the order in which places are drawn: of the streets that are left,
// in the order of their making, the one at a place drawn modulo their number goes next, and the last one moves to its place. Then
// each street draws a cost of 10 to 99 and a demand of 1 to 10. The depot is corner 1. Then each of GROUPS groups draws a number of
// edges, 2 to 12, a weight of 1 to 20, and so many times one of the streets to be served, of which each counts once; two edges that
// follow each other are charged the weights of the groups that both are of. In fill number i, from 0, the price of each
// service is its cost, and for each unit of demand 7 + i mod 5, and a draw modulo 20. It prints the sum of the least values.
#include <algorithm>
#include <cstdint>
#include <cstdio>
#include <cstdlib>
#include <queue>
#include <vector>

// Built with -DNARROW, its numbers have 64 bits, which serves for prices below 10^11.
#ifdef NARROW
using Wide = uint64_t;
constexpr int64_t LIFT = 100000000000;
#else
using Wide = unsigned __int128;
constexpr int64_t LIFT = 1000000000000000;
#endif
constexpr Wide NEVER = ~Wide(0);

static uint64_t state = 1;
static uint64_t draw() {
  state = state * 6364136223846793005u + 1442695040888963407u;
  return state >> 33;
}

struct Street {
  uint32_t u, v;
  int64_t cost, demand;
};

struct Labels {
  Wide first, second;
  uint32_t first_edge, second_edge;
};

static Wide longer(Wide value, Wide length) {
  Wide sum = value + length;
  return sum < value ? NEVER : sum;
}

static Labels inserted(Labels x, Wide value, uint32_t edge) {
  if (value >= x.second) return x;
  if (edge == x.first_edge) {
    x.first = std::min(x.first, value);
  } else if (value < x.first) {
    x = {value, x.first, edge, x.first_edge};
  } else {
    x.second = value;
    x.second_edge = edge;
  }
  return x;
}

class Town {
public:
  uint32_t corners;
  std::vector<Street> streets;

  Town(uint32_t columns, uint32_t rows, size_t wanted) : corners(columns * rows) {
    std::vector<Street> made;
    for (uint32_t y = 0; y < rows; y++) {
      for (uint32_t x = 0; x < columns; x++) {
        uint32_t at = y * columns + x;
        if (x + 1 < columns) made.push_back({at, at + 1, 0, 0});
        if (y + 1 < rows) made.push_back({at, at + columns, 0, 0});
      }
    }
    while (made.size() < wanted) {
      uint32_t u = static_cast<uint32_t>(draw() % corners);
      uint32_t v = static_cast<uint32_t>((u + 1 + draw() % (corners - 1)) % corners);
      made.push_back({u, v, 0, 0});
    }
    while (!made.empty()) {
      size_t i = draw() % made.size();
      streets.push_back(made[i]);
      made[i] = made.back();
      made.pop_back();
    }
    for (Street &street : streets) {
      street.cost = static_cast<int64_t>(10 + draw() % 90);
      street.demand = static_cast<int64_t>(1 + draw() % 10);
    }
  }

  std::vector<Wide> distances() const {
    std::vector<std::vector<std::pair<uint32_t, int64_t>>> ways(corners);
    for (const Street &s : streets) {
      ways[s.u].push_back({s.v, s.cost});
      ways[s.v].push_back({s.u, s.cost});
    }
    std::vector<Wide> all(size_t(corners) * corners, NEVER);
    using Item = std::pair<Wide, uint32_t>;
    for (uint32_t from = 0; from < corners; from++) {
      Wide *row = &all[size_t(from) * corners];
      std::priority_queue<Item, std::vector<Item>, std::greater<Item>> queue;
      row[from] = 0;
      queue.push({0, from});
      while (!queue.empty()) {
        Item next = queue.top();
        queue.pop();
        if (next.first > row[next.second]) continue;
        for (auto [to, cost] : ways[next.second]) {
          Wide sum = next.first + Wide(cost);
          if (sum < row[to]) {
            row[to] = sum;
            queue.push({sum, to});
          }
        }
      }
    }
    return all;
  }
};

// What two edges are charged that follow each other, and which edges are of some group.
struct Charges {
  std::vector<uint64_t> pairs;
  std::vector<bool> some;

  Charges(uint32_t required, uint32_t groups) : pairs(size_t(required) * required), some(required) {
    for (uint32_t i = 0; i < groups; i++) {
      size_t size = 2 + draw() % 11;
      uint64_t weight = 1 + draw() % 20;
      std::vector<uint32_t> edges;
      for (size_t k = 0; k < size; k++) edges.push_back(static_cast<uint32_t>(draw() % required));
      std::sort(edges.begin(), edges.end());
      edges.erase(std::unique(edges.begin(), edges.end()), edges.end());
      if (edges.size() < 2) continue;
      for (uint32_t e : edges) {
        some[e] = true;
        for (uint32_t f : edges) pairs[size_t(e) * required + f] += weight;
      }
    }
  }
};

class Table {
public:
  Table(const Town &town, uint32_t required, size_t capacity, const std::vector<Wide> &distances, const Charges &charges)
      : town(town), required(required), capacity(capacity), distances(distances), charges(charges), cells((capacity + 1) * 2 * required), layer(town.corners), adds(required) {
    for (const Street &s : town.streets) lengths.push_back(between(s.u, s.v));
    for (uint32_t c = 0; c < 2 * required; c++) ends.push_back(end(c));
  }

  void fill(const std::vector<int64_t> &prices) {
    for (uint32_t e = 0; e < required; e++) {
      const Street &s = town.streets[e];
      adds[e] = Wide(s.cost + LIFT * s.demand - prices[e]);
    }
    std::fill(cells.begin(), cells.end(), NEVER);
    for (uint32_t c = 0; c < 2 * required; c++) cell(size_t(town.streets[c / 2].demand), c) = between(0, start(c)) + adds[c / 2];
    for (size_t load = 1; load <= capacity; load++) extend(load);
  }

  __int128 least() {
    __int128 best = 0;
    bool found = false;
    for (size_t load = 1; load <= capacity; load++) {
      for (uint32_t c = 0; c < 2 * required; c++) {
        Wide value = cell(load, c);
        if (value == NEVER) continue;
        __int128 whole = __int128(value + between(end(c), 0)) - __int128(LIFT) * __int128(load);
        if (!found || whole < best) best = whole;
        found = true;
      }
    }
    return best;
  }

private:
  const Town &town;
  uint32_t required;
  size_t capacity;
  const std::vector<Wide> &distances;
  const Charges &charges;
  std::vector<Wide> cells;
  std::vector<Labels> layer;
  std::vector<Wide> adds, lengths;
  std::vector<uint32_t> ends;

  Wide &cell(size_t load, uint32_t c) { return cells[load * 2 * required + c]; }
  Wide between(uint32_t a, uint32_t b) const { return distances[size_t(a) * town.corners + b]; }
  uint32_t start(uint32_t c) const { return c % 2 == 0 ? town.streets[c / 2].u : town.streets[c / 2].v; }
  uint32_t end(uint32_t c) const { return c % 2 == 0 ? town.streets[c / 2].v : town.streets[c / 2].u; }

  bool pass(uint32_t from, uint32_t to, Wide length) {
    const Labels &x = layer[from];
    Labels &old = layer[to];
    Wide first = longer(x.first, length);
    if (first >= old.second) return false;
    Labels now = inserted(inserted(old, first, x.first_edge), longer(x.second, length), x.second_edge);
    bool less = now.first < old.first || now.second < old.second;
    if (less) old = now;
    return less;
  }

  bool sweep() {
    bool changed = false;
    for (size_t i = 0; i < town.streets.size(); i++) {
      const Street &s = town.streets[i];
      bool there = pass(s.u, s.v, lengths[i]);
      bool back = pass(s.v, s.u, lengths[i]);
      changed = changed || there || back;
    }
    return changed;
  }

  void extend(size_t load) {
    std::fill(layer.begin(), layer.end(), Labels{NEVER, NEVER, UINT32_MAX, UINT32_MAX});
    for (uint32_t c = 0; c < 2 * required; c++) layer[end(c)] = inserted(layer[end(c)], cell(load, c), c / 2);
    while (sweep()) {
    }
    for (uint32_t c = 0; c < 2 * required; c++) {
      size_t next = load + size_t(town.streets[c / 2].demand);
      if (next > capacity) continue;
      Wide best = charges.some[c / 2] ? charged(load, c) : free(c);
      cell(next, c) = best == NEVER ? NEVER : best + adds[c / 2];
    }
  }

  Wide free(uint32_t c) const {
    const Labels &x = layer[start(c)];
    return x.first_edge != c / 2 ? x.first : x.second;
  }

  Wide label(Wide value, uint32_t edge, uint32_t c) const {
    return edge == c / 2 ? NEVER : value + charges.pairs[size_t(c / 2) * required + edge];
  }

  Wide charged(size_t load, uint32_t c) {
    const Labels &x = layer[start(c)];
    if (x.first == NEVER) return NEVER;
    Wide first = label(x.first, x.first_edge, c);
    if (first <= x.second) return first;
    Wide second = label(x.second, x.second_edge, c);
    if (second == x.second) return second;
    return joined(load, c, std::min(first, second));
  }

  // The least value with the way and the charge to a task, where one is known. Distances are the same both ways.
  Wide joined(size_t load, uint32_t c, Wide best) const {
    const Wide *values = &cells[load * 2 * required];
    const Wide *ways = &distances[size_t(start(c)) * town.corners];
    const uint64_t *charged = &charges.pairs[size_t(c / 2) * required];
    for (uint32_t b = 0; b < 2 * required; b++) {
      if (values[b] >= best || b / 2 == c / 2) continue;
      best = std::min(best, values[b] + ways[ends[b]] + charged[b / 2]);
    }
    return best;
  }
};

int main(int argc, char **argv) {
  if (argc != 8) {
    std::fprintf(stderr, "usage: pricing COLUMNS ROWS STREETS REQUIRED CAPACITY FILLS GROUPS\n");
    return 3;
  }
  auto number = [&](int i) { return static_cast<uint32_t>(std::strtoul(argv[i], nullptr, 10)); };
  uint32_t required = number(4);
  Town town(number(1), number(2), number(3));
  std::vector<Wide> distances = town.distances();
  Charges charges(required, number(7));
  Table table(town, required, number(5), distances, charges);
  __int128 sum = 0;
  for (uint32_t i = 0; i < number(6); i++) {
    std::vector<int64_t> prices;
    for (uint32_t e = 0; e < required; e++) prices.push_back(town.streets[e].cost + town.streets[e].demand * int64_t(7 + i % 5) + int64_t(draw() % 20));
    table.fill(prices);
    sum += table.least();
  }
  std::printf("value %lld\n", static_cast<long long>(sum));
  return 0;
}
