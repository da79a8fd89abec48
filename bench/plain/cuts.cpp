// Violated sets of vertices of a drawn network of streets: odd components, components whose need is above the deadheads over
// them, the set of greatest fractional violation by Dinic's method, and the level sets of the distances.
//
// usage: cuts KIND TIMES, where KIND is 1: odd components, 2: needy components, 3: the greatest violation, 4: level sets
//
// The network: x starts at 1, and each draw sets x to 6364136223846793005 * x + 1442695040888963407 modulo 2^64 and gives x / 2^33.
// A street between drawn vertices has u = a mod 1000 and v = (u + 1 + b mod 999) mod 1000, counted from 0, and then its cost 1 + c mod
// 1000 and its demand 1 + d mod 100. There are 600 required streets of this kind; then one for each vertex v from the second on, to
// the vertex of number a mod (v - 1), counted from 0; then 2401 more of the first kind. Then each search draws a number for each
// edge: where it is divisible by 4, its fourth part mod 2000 are the parts of 1000 of a deadhead, and else there is none.
#include <algorithm>
#include <cstdint>
#include <cstdio>
#include <cstdlib>
#include <functional>
#include <queue>
#include <utility>
#include <vector>

using Wide = unsigned __int128;

constexpr uint32_t VERTICES = 1000, REQUIRED = 600, OTHERS = 2401, DEPOT = 0;
constexpr uint64_t UNIT = 1000, CAPACITY = 1000;

static uint64_t state = 1;

static uint64_t draw() {
  state = 6364136223846793005u * state + 1442695040888963407u;
  return state >> 33;
}

struct Edge {
  uint32_t u, v;
  uint64_t cost, demand;
};

using Shore = std::vector<uint32_t>;

static std::vector<Edge> edges;
static std::vector<std::vector<uint32_t>> incident(VERTICES);

static void add_edge(uint32_t u, uint32_t v, bool required) {
  uint64_t cost = 1 + draw() % 1000, demand = 1 + draw() % 100;
  incident[u].push_back(static_cast<uint32_t>(edges.size()));
  incident[v].push_back(static_cast<uint32_t>(edges.size()));
  edges.push_back({u, v, cost, required ? demand : 0});
}

static void add_streets(uint32_t count, bool required) {
  for (uint32_t i = 0; i < count; i++) {
    uint64_t u = draw() % VERTICES, v = (u + 1 + draw() % (VERTICES - 1)) % VERTICES;
    add_edge(static_cast<uint32_t>(u), static_cast<uint32_t>(v), required);
  }
}

static void make_streets() {
  add_streets(REQUIRED, true);
  for (uint32_t v = 1; v < VERTICES; v++) add_edge(static_cast<uint32_t>(draw() % v), v, false);
  add_streets(OTHERS, false);
}

static std::vector<uint64_t> draw_parts() {
  std::vector<uint64_t> x(edges.size());
  for (uint64_t &parts : x) {
    uint64_t number = draw();
    parts = number % 4 == 0 ? number / 4 % (2 * UNIT) : 0;
  }
  return x;
}

// For each vertex the least vertex of its component.
static std::vector<uint32_t> label(const std::vector<uint64_t> &x, uint64_t least) {
  std::vector<uint32_t> labels(VERTICES, VERTICES), waiting;
  for (uint32_t root = 0; root < VERTICES; root++) {
    if (labels[root] != VERTICES) continue;
    labels[root] = root;
    waiting.push_back(root);
    while (!waiting.empty()) {
      uint32_t at = waiting.back();
      waiting.pop_back();
      for (uint32_t e : incident[at]) {
        if (x[e] < least) continue;
        uint32_t far = edges[e].u == at ? edges[e].v : edges[e].u;
        if (labels[far] == VERTICES) {
          labels[far] = root;
          waiting.push_back(far);
        }
      }
    }
  }
  return labels;
}

struct Border {
  uint64_t crossings = 0, demand = 0, parts = 0;
};

// The components, without the depot, whose borders pass.
template <typename Passes> static std::vector<Shore> components(const std::vector<uint64_t> &x, uint64_t least, Passes passes) {
  std::vector<uint32_t> labels = label(x, least);
  std::vector<Border> borders(VERTICES);
  for (uint32_t e = 0; e < edges.size(); e++) {
    const Edge &edge = edges[e];
    uint32_t a = labels[edge.u], b = labels[edge.v];
    borders[a].demand += edge.demand;
    if (a == b) continue;
    borders[b].demand += edge.demand;
    borders[a].crossings += e < REQUIRED;
    borders[b].crossings += e < REQUIRED;
    borders[a].parts += x[e];
    borders[b].parts += x[e];
  }
  std::vector<Shore> all(VERTICES), found;
  for (uint32_t v = 0; v < VERTICES; v++) all[labels[v]].push_back(v);
  for (uint32_t r = 0; r < VERTICES; r++)
    if (labels[r] == r && labels[DEPOT] != r && passes(borders[r])) found.push_back(std::move(all[r]));
  return found;
}

static bool is_odd(const Border &border) { return border.crossings % 2 == 1; }

static bool is_needy(const Border &border) {
  uint64_t vehicles = (border.demand + CAPACITY - 1) / CAPACITY;
  uint64_t need = std::max(border.crossings % 2, 2 * vehicles - std::min(2 * vehicles, border.crossings));
  return border.parts < need * UNIT;
}

class Dinic {
public:
  Dinic(uint32_t nodes, uint32_t source, uint32_t target) : source(source), target(target), links(nodes), layer(nodes), next(nodes) {}

  void add(uint32_t from, uint32_t to, uint64_t room) {
    links[from].push_back(static_cast<uint32_t>(ends.size()));
    ends.push_back({to, room});
    links[to].push_back(static_cast<uint32_t>(ends.size()));
    ends.push_back({from, 0});
  }

  Wide run() {
    Wide value = 0;
    while (search()) {
      std::fill(next.begin(), next.end(), 0);
      while (uint64_t sent = send(source, UINT64_MAX)) value += sent;
    }
    return value;
  }

  bool on_side(uint32_t node) const { return layer[node] != 0; }

private:
  struct End {
    uint32_t node;
    uint64_t room;
  };

  bool search() {
    std::fill(layer.begin(), layer.end(), 0);
    std::queue<uint32_t> queue;
    layer[source] = 1;
    queue.push(source);
    while (!queue.empty()) {
      uint32_t at = queue.front();
      queue.pop();
      for (uint32_t link : links[at]) {
        const End &end = ends[link];
        if (end.room > 0 && layer[end.node] == 0) {
          layer[end.node] = layer[at] + 1;
          queue.push(end.node);
        }
      }
    }
    return layer[target] != 0;
  }

  uint64_t send(uint32_t at, uint64_t most) {
    if (at == target) return most;
    for (; next[at] < links[at].size(); next[at]++) {
      uint32_t link = links[at][next[at]];
      End &end = ends[link];
      if (end.room == 0 || layer[end.node] != layer[at] + 1) continue;
      if (uint64_t sent = send(end.node, std::min(most, end.room))) {
        end.room -= sent;
        ends[link ^ 1].room += sent;
        return sent;
      }
    }
    return 0;
  }

  uint32_t source, target;
  std::vector<std::vector<uint32_t>> links;
  std::vector<uint32_t> layer, next;
  std::vector<End> ends;
};

static Shore most_violated(const std::vector<uint64_t> &x) {
  Dinic flow(VERTICES + 1, VERTICES, DEPOT);
  std::vector<uint64_t> met(VERTICES);
  uint64_t total = 0;
  for (uint32_t e = 0; e < edges.size(); e++) {
    const Edge &edge = edges[e];
    uint64_t room = (e < REQUIRED ? UNIT * (CAPACITY - edge.demand) : 0) + CAPACITY * x[e];
    flow.add(edge.u, edge.v, room);
    flow.add(edge.v, edge.u, room);
    met[edge.u] += edge.demand;
    met[edge.v] += edge.demand;
    total += edge.demand;
  }
  for (uint32_t v = 0; v < VERTICES; v++) flow.add(VERTICES, v, UNIT * met[v]);
  Shore shore;
  if (flow.run() < static_cast<Wide>(2 * UNIT) * total)
    for (uint32_t v = 0; v < VERTICES; v++)
      if (flow.on_side(v)) shore.push_back(v);
  return shore;
}

static std::vector<uint64_t> lengths() {
  std::vector<uint64_t> length(VERTICES, UINT64_MAX);
  std::priority_queue<std::pair<uint64_t, uint32_t>, std::vector<std::pair<uint64_t, uint32_t>>, std::greater<>> queue;
  length[DEPOT] = 0;
  queue.push({0, DEPOT});
  while (!queue.empty()) {
    auto [near, at] = queue.top();
    queue.pop();
    if (near != length[at]) continue;
    for (uint32_t e : incident[at]) {
      uint32_t far = edges[e].u == at ? edges[e].v : edges[e].u;
      if (near + edges[e].cost < length[far]) {
        length[far] = near + edges[e].cost;
        queue.push({length[far], far});
      }
    }
  }
  return length;
}

static std::vector<std::pair<Shore, uint64_t>> shells(const std::vector<uint64_t> &length) {
  std::vector<uint64_t> ends = length;
  std::sort(ends.begin(), ends.end());
  std::vector<std::pair<Shore, uint64_t>> found;
  uint64_t level = 0;
  for (uint64_t end : ends) {
    if (end == level) continue;
    Shore shore;
    for (uint32_t v = 0; v < VERTICES; v++)
      if (level < length[v]) shore.push_back(v);
    found.push_back({std::move(shore), end - level});
    level = end;
  }
  return found;
}

static uint64_t sum_of(const Shore &shore) {
  uint64_t sum = 0;
  for (uint32_t v : shore) sum += v + 1;
  return sum;
}

static uint64_t sum_of_all(const std::vector<Shore> &shores) {
  uint64_t sum = 0;
  for (const Shore &shore : shores) sum = 3 * sum + sum_of(shore);
  return sum;
}

int main(int, char **words) {
  int kind = std::atoi(words[1]), times = std::atoi(words[2]);
  make_streets();
  std::vector<uint64_t> length = lengths();
  uint64_t sum = 0;
  for (int i = 0; i < times; i++) {
    if (kind == 4) {
      for (const auto &[shore, levels] : shells(length)) sum += levels * sum_of(shore);
      continue;
    }
    std::vector<uint64_t> x = draw_parts();
    if (kind == 1) sum += sum_of_all(components(x, 1, is_odd));
    if (kind == 2) sum += sum_of_all(components(x, UNIT, is_needy));
    if (kind == 3) sum += sum_of(most_violated(x));
  }
  std::printf("value %llu\n", static_cast<unsigned long long>(sum));
  return 0;
}
