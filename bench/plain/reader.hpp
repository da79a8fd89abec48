// A plain reader of instance files, for the grammar of docs/FORMATS.md.
#pragma once
#include <array>
#include <cctype>
#include <cstdint>
#include <cstdio>
#include <cstdlib>
#include <cstring>
#include <optional>
#include <string>
#include <string_view>
#include <vector>

struct Edge {
  uint64_t u, v, cost, demand, service;
};

// The required edges come first, and edge e is edges[e - 1].
struct Instance {
  uint64_t vertices, required, capacity, depot;
  std::vector<Edge> edges;

  uint64_t total_demand() const {
    uint64_t sum = 0;
    for (uint64_t i = 0; i < required; i++) sum += edges[i].demand;
    return sum;
  }
};

[[noreturn]] inline void refuse(const std::string &why) {
  std::fprintf(stderr, "bad instance: %s\n", why.c_str());
  std::exit(4);
}

inline std::string bytes_of(const char *name) {
  std::FILE *file = std::fopen(name, "rb");
  if (file == nullptr) {
    std::perror(name);
    std::exit(6);
  }
  std::string bytes;
  char piece[65536];
  while (size_t count = std::fread(piece, 1, sizeof piece, file)) bytes.append(piece, count);
  std::fclose(file);
  return bytes;
}

inline bool is_blank(char c) { return c == ' ' || c == '\t' || c == '\r' || c == 26; }
inline bool is_digit(char c) { return '0' <= c && c <= '9'; }
inline char lower(char c) { return 'A' <= c && c <= 'Z' ? static_cast<char>(c - 'A' + 'a') : c; }
inline bool is_key_byte(char c) { return is_digit(c) || c == '_' || ('a' <= lower(c) && lower(c) <= 'z'); }

// What is left of a line.
class Cursor {
public:
  Cursor(const char *from, const char *stop, size_t number) : at(from), end(stop), line(number) {}

  [[noreturn]] void fail() const { refuse("line " + std::to_string(line) + " cannot be read"); }

  void skip_blanks() {
    while (at != end && is_blank(*at)) at++;
  }

  bool done() {
    skip_blanks();
    return at == end;
  }

  bool takes(char c) {
    skip_blanks();
    if (at == end || *at != c) return false;
    at++;
    return true;
  }

  void byte(char c) {
    if (!takes(c)) fail();
  }

  void word(std::string_view letters) {
    skip_blanks();
    if (static_cast<size_t>(end - at) < letters.size()) fail();
    for (char c : letters)
      if (lower(*at++) != c) fail();
  }

  uint64_t number() {
    skip_blanks();
    const char *from = at;
    uint64_t value = 0;
    while (at != end && is_digit(*at)) value = 10 * value + static_cast<uint64_t>(*at++ - '0');
    if (at == from) fail();
    if (at - from > 18) refuse("line " + std::to_string(line) + " has a number of more than 18 digits");
    return value;
  }

  std::string_view key() {
    skip_blanks();
    const char *from = at;
    while (at != end && is_key_byte(*at)) at++;
    return std::string_view(from, static_cast<size_t>(at - from));
  }

  // The number that a key states; whatever follows a blank behind it is skipped.
  uint64_t stated() {
    takes(':');
    uint64_t value = number();
    if (at != end && !is_blank(*at)) fail();
    return value;
  }

private:
  const char *at, *end;
  size_t line;
};

class Reader {
public:
  Instance read(const std::string &bytes) {
    const char *at = bytes.data(), *end = at + bytes.size();
    for (size_t line = 1;; line++) {
      const void *found = std::memchr(at, '\n', static_cast<size_t>(end - at));
      const char *stop = found == nullptr ? end : static_cast<const char *>(found);
      read_line(Cursor(at, stop, line));
      if (found == nullptr) break;
      at = stop + 1;
    }
    return finish();
  }

private:
  enum Key { VERTICES, REQUIRED, CAPACITY, DEPOT, OTHERS, REQUIRED_LIST, OTHER_LIST, KEYS };
  static constexpr std::array<std::string_view, KEYS> NAMES = {
      "vertices", "aristas_req", "capacidad", "deposito", "aristas_noreq", "lista_aristas_req", "lista_aristas_noreq"};

  std::array<bool, KEYS> stands{};
  std::array<uint64_t, KEYS> values{};
  Key list = KEYS;
  std::vector<Edge> served, others;

  static Key key_of(std::string_view name) {
    for (size_t k = 0; k < KEYS; k++) {
      if (name.size() != NAMES[k].size()) continue;
      size_t i = 0;
      while (i < name.size() && lower(name[i]) == NAMES[k][i]) i++;
      if (i == name.size()) return static_cast<Key>(k);
    }
    return KEYS;
  }

  static std::string upper(std::string_view name) {
    std::string text(name);
    for (char &c : text) c = static_cast<char>(std::toupper(static_cast<unsigned char>(c)));
    return text;
  }

  void read_line(Cursor at) {
    if (at.takes('(')) {
      read_edge(at);
      return;
    }
    Key key = key_of(at.key());
    if (key == KEYS) return;
    bool is_list = key == REQUIRED_LIST || key == OTHER_LIST;
    uint64_t value = is_list ? 0 : at.stated();
    if (stands[key]) refuse("key " + upper(NAMES[key]) + " stands twice");
    stands[key] = true;
    values[key] = value;
    if (is_list) list = key;
  }

  void read_edge(Cursor at) {
    if (list == KEYS) at.fail();
    Edge edge{};
    edge.u = at.number();
    at.byte(',');
    edge.v = at.number();
    at.byte(')');
    at.word("coste");
    edge.cost = edge.service = at.number();
    if (list == REQUIRED_LIST || !at.done()) {
      at.word("demanda");
      edge.demand = at.number();
    }
    if (list == OTHER_LIST) {
      if (edge.demand != 0 || !at.done()) at.fail();
      edge.service = 0;
      others.push_back(edge);
      return;
    }
    if (!at.done()) {
      at.word("servicio");
      edge.service = at.number();
      if (!at.done()) at.fail();
    }
    served.push_back(edge);
  }

  void count(Key key, size_t held) const {
    if (stands[key] && values[key] != held)
      refuse(upper(NAMES[key]) + " states " + std::to_string(values[key]) + " and the list has " + std::to_string(held));
  }

  Instance finish() {
    for (Key key : {VERTICES, REQUIRED, CAPACITY, DEPOT})
      if (!stands[key]) refuse("key " + upper(NAMES[key]) + " is missing");
    count(REQUIRED, served.size());
    count(OTHERS, others.size());
    Instance made{values[VERTICES], served.size(), values[CAPACITY], values[DEPOT], std::move(served)};
    made.edges.insert(made.edges.end(), others.begin(), others.end());
    check(made);
    return made;
  }

  // The limits of an instance, but for the reach of its required edges.
  static void check(const Instance &made) {
    if (made.vertices > 1000) refuse("too many vertices");
    if (made.edges.size() > 4000) refuse("too many edges");
    if (made.required > 600) refuse("too many required edges");
    for (const Edge &edge : made.edges) {
      if (edge.u < 1 || edge.u > made.vertices || edge.v < 1 || edge.v > made.vertices) refuse("an end is out of range");
      if (edge.u == edge.v) refuse("an edge is a loop");
      if (edge.cost > 1000000 || edge.service > 1000000) refuse("a cost is too large");
    }
    if (made.capacity < 1 || made.capacity > 30000) refuse("the capacity is out of range");
    for (uint64_t i = 0; i < made.required; i++)
      if (made.edges[i].demand < 1 || made.edges[i].demand > made.capacity) refuse("a demand is out of range");
    if (made.depot < 1 || made.depot > made.vertices) refuse("the depot is out of range");
    if (2 * made.required * (made.capacity + 1) > 24000000) refuse("too many states");
  }
};

inline Instance instance_of(const char *name) { return Reader().read(bytes_of(name)); }
