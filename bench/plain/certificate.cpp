// Reads a certificate of version 1 as carp does, line by line with its shapes, ranges and agreement, and writes it again where a second word
// stands. It proves nothing and names no fault: a bad text ends it with status 4.
//
// usage: certificate FILE [write]
#include <charconv>
#include <cstdint>
#include <cstdio>
#include <cstdlib>
#include <cstring>
#include <string>
#include <vector>

struct Step {
  uint32_t edge;
  bool forward;
  bool served;
};

struct Set {
  int64_t unit;
  std::vector<int64_t> services;
  std::vector<std::pair<int64_t, int64_t>> weights;
};

struct Node {
  char kind;
  int64_t a;
  int64_t b;
};

static const char *at;
static const char *end;

[[noreturn]] static void bad() { exit(4); }

static void literal(const char *text) {
  size_t size = strlen(text);
  if (static_cast<size_t>(end - at) < size || memcmp(at, text, size) != 0) bad();
  at += size;
}

static bool starts(const char *text) {
  size_t size = strlen(text);
  return static_cast<size_t>(end - at) >= size && memcmp(at, text, size) == 0;
}

// A number in a range, spelled without leading zeros.
static int64_t number(int64_t least, int64_t most) {
  bool negative = at < end && *at == '-';
  if (negative) at++;
  const char *first = at;
  int64_t value = 0;
  while (at < end && *at >= '0' && *at <= '9') {
    if (at - first == 18) bad();
    value = 10 * value + (*at++ - '0');
  }
  if (at == first || (*first == '0' && (at - first > 1 || negative))) bad();
  if (negative) value = -value;
  if (value < least || value > most) bad();
  return value;
}

static int64_t line(const char *word, int64_t least, int64_t most) {
  literal(word);
  int64_t value = number(least, most);
  literal("\n");
  return value;
}

static void put(std::string &out, int64_t value) {
  char digits[24];
  auto done = std::to_chars(digits, digits + sizeof digits, value);
  out.append(digits, static_cast<size_t>(done.ptr - digits));
}

static void put_line(std::string &out, const char *word, int64_t value) {
  out += word;
  put(out, value);
  out += '\n';
}

int main(int argc, char **argv) {
  if (argc < 2) return 3;
  FILE *file = fopen(argv[1], "rb");
  if (file == nullptr) return 2;
  std::vector<char> bytes;
  char piece[65536];
  for (size_t got; (got = fread(piece, 1, sizeof piece, file)) > 0;) bytes.insert(bytes.end(), piece, piece + got);
  fclose(file);
  at = bytes.data();
  end = at + bytes.size();

  literal("carp-certificate 1\n");
  int64_t cost = line("cost ", 0, 999999999999999999);
  int64_t bound = line("bound ", 0, 999999999999999999);
  int64_t tours = line("tours ", 0, 100000);
  std::vector<std::vector<Step>> plan;
  int64_t total = 0;
  for (int64_t t = 0; t < tours; t++) {
    literal("tour ");
    int64_t count = number(0, 2000000 - total);
    total += count;
    std::vector<Step> walk;
    for (int64_t i = 0; i < count; i++) {
      literal(" ");
      char mark = at < end ? *at++ : ' ';
      if (mark != '+' && mark != '-' && mark != '>' && mark != '<') bad();
      walk.push_back({static_cast<uint32_t>(number(1, 4000)), mark == '+' || mark == '>', mark == '+' || mark == '-'});
    }
    literal("\n");
    plan.push_back(std::move(walk));
  }
  int64_t shores = line("shores ", 0, 2000);
  std::vector<std::vector<int64_t>> pool;
  for (int64_t s = 0; s < shores; s++) {
    literal("shore ");
    int64_t count = number(1, 999);
    std::vector<int64_t> vertices;
    for (int64_t i = 0; i < count; i++) {
      literal(" ");
      vertices.push_back(number(1, 1000));
      if (i > 0 && vertices[i - 1] >= vertices[i]) bad();
    }
    for (const auto &other : pool)
      if (other == vertices) bad();
    literal("\n");
    pool.push_back(std::move(vertices));
  }
  const int64_t most = 1000000000000000;
  int64_t count_of_sets = line("sets ", 0, 256);
  std::vector<Set> sets;
  for (int64_t s = 0; s < count_of_sets; s++) {
    Set set;
    literal("prices ");
    set.unit = number(1, 1000000);
    literal(" ");
    int64_t prices = number(0, 600);
    for (int64_t i = 0; i < prices; i++) {
      literal(" ");
      set.services.push_back(number(-most, most));
    }
    literal("\nweights ");
    int64_t weights = number(0, shores);
    for (int64_t i = 0; i < weights; i++) {
      literal(" ");
      int64_t shore = number(1, shores);
      literal(" ");
      int64_t weight = number(-most, most);
      if (weight == 0 || (i > 0 && set.weights[i - 1].first >= shore)) bad();
      set.weights.push_back({shore, weight});
    }
    literal("\n");
    sets.push_back(std::move(set));
  }
  int64_t count = line("nodes ", 1, 2097153);
  std::vector<Node> nodes;
  nodes.reserve(static_cast<size_t>(count));
  int64_t open = 1;
  for (int64_t i = 0; i < count; i++) {
    if (open == 0) bad();
    open--;
    if (starts("pair ")) {
      literal("pair ");
      int64_t a = number(1, 600);
      literal(" ");
      int64_t b = number(1, 600);
      if (a >= b) bad();
      nodes.push_back({'p', a, b});
      open += 2;
    } else if (starts("cut ")) {
      literal("cut ");
      int64_t shore = number(1, shores);
      literal(" ");
      nodes.push_back({'c', shore, number(0, 1000000)});
      open += 2;
    } else if (starts("price ")) {
      literal("price ");
      nodes.push_back({'s', number(1, count_of_sets), 0});
    } else if (starts("void")) {
      literal("void");
      nodes.push_back({'v', 0, 0});
    } else {
      literal("fixed");
      nodes.push_back({'f', 0, 0});
    }
    literal("\n");
  }
  if (open != 0) bad();
  literal("end\n");
  if (at != end) bad();

  size_t length = bytes.size();
  if (argc > 2) {
    std::string out = "carp-certificate 1\n";
    put_line(out, "cost ", cost);
    put_line(out, "bound ", bound);
    put_line(out, "tours ", tours);
    for (const auto &walk : plan) {
      out += "tour ";
      put(out, static_cast<int64_t>(walk.size()));
      for (const Step &step : walk) {
        out += ' ';
        out += step.served ? (step.forward ? '+' : '-') : (step.forward ? '>' : '<');
        put(out, step.edge);
      }
      out += '\n';
    }
    put_line(out, "shores ", shores);
    for (const auto &shore : pool) {
      out += "shore ";
      put(out, static_cast<int64_t>(shore.size()));
      for (int64_t vertex : shore) out += ' ', put(out, vertex);
      out += '\n';
    }
    put_line(out, "sets ", count_of_sets);
    for (const Set &set : sets) {
      out += "prices ";
      put(out, set.unit);
      out += ' ';
      put(out, static_cast<int64_t>(set.services.size()));
      for (int64_t price : set.services) out += ' ', put(out, price);
      out += "\nweights ";
      put(out, static_cast<int64_t>(set.weights.size()));
      for (auto [shore, weight] : set.weights) out += ' ', put(out, shore), out += ' ', put(out, weight);
      out += '\n';
    }
    put_line(out, "nodes ", count);
    for (const Node &node : nodes) {
      if (node.kind == 'v' || node.kind == 'f') {
        out += node.kind == 'v' ? "void" : "fixed";
      } else {
        out += node.kind == 'p' ? "pair " : node.kind == 'c' ? "cut " : "price ";
        put(out, node.a);
        if (node.kind != 's') out += ' ', put(out, node.b);
      }
      out += '\n';
    }
    out += "end\n";
    length = out.size();
    if (length != bytes.size() || memcmp(out.data(), bytes.data(), length) != 0) bad();
  }
  printf("nodes %zu\nbytes %zu\n", nodes.size(), length);
}
