# What the scripts share: the folder for all that is made, the plain programs, and a race of `carp solve` beside one of them.
bench=$(cd "$(dirname "${BASH_SOURCE[0]}")" && pwd) || exit 1
carp=${CARP:-$bench/../crates/carp/out/carp}
export CARP=$carp
runs=${RUNS:-5}
work=$(mktemp -d) || exit 1
trap 'rm -rf "$work"' EXIT

# build NAME: makes bench/plain/NAME.cpp into the folder
build() {
  g++ -std=c++17 -O2 -Wall -Wextra -Wl,--as-needed -o "$work/$1" "$bench/plain/$1.cpp"
}

# make_limits: makes two instances of 1,000 vertices, 4,000 edges and 600 required ones, with the capacities 1,000 and 19,999, in the folder
make_limits() {
  for capacity in 1000 19999; do
    python3 "$bench/make_instance.py" 1000 4000 600 "$capacity" 1 >"$work/limits-$capacity.dat"
  done
}

# race KIND NAME FILE: times carp and the plain program KIND on the file, and prints a row of bench/results/measured.csv
race() {
  local ours plain
  if [ ! -x "$carp" ]; then
    echo "bench: no program at $carp; run ./carp once, which builds it, or name another in CARP" >&2
    return 1
  fi
  ours=$("$work/clock" "$runs" 01 "$work/ours" "$carp" solve "$3" "$work/cert") || { cat "$work/ours" >&2; return 1; }
  plain=$("$work/clock" "$runs" 0 "$work/plain" "$work/$1" "$3") || return 1
  python3 "$bench/row.py" "$1" "$2" "$work/ours" "$work/plain" "$ours" "$plain"
}
