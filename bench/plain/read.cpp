// Reads an instance file, and prints what `carp solve` prints first.
#include "reader.hpp"

int main(int argc, char **argv) {
  if (argc != 2) {
    std::fprintf(stderr, "usage: read FILE\n");
    return 3;
  }
  Instance inst = instance_of(argv[1]);
  std::printf("vertices %llu\nedges %zu\ndemand %llu\n", static_cast<unsigned long long>(inst.vertices),
              inst.edges.size(), static_cast<unsigned long long>(inst.total_demand()));
}
