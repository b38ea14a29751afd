# What the scripts of this folder share; they source it. `top` is the repository, `work` a folder that goes when they end.
# Each script compares with something outside, in the same run: the two take turns, and of each the least processor time counts,
# the system's on its behalf with it. The first line says when and where: the script, date, processors and load.
set -eu
export LC_ALL=C
top=$(cd "$(dirname "${BASH_SOURCE[0]}")/.." && pwd)
work=$(mktemp -d)
trap 'rm -rf "$work"' EXIT

say_where() {
  echo "bench/$(basename "$0"), $(date -u +%F), $(nproc) processors, load $(cut -d' ' -f1 /proc/loadavg)"
}

# Proves and builds crates/cs_bench, which is `bench` then: its word `hash` takes the strings that a replay can't spare.
prepare_bench() {
  (cd "$top/crates/cs_bench" && rt run -- table 10 2 3 >/dev/null 2>&1)
  bench=$top/crates/cs_bench/out/cs_bench
}

# The same as `program`, for a script that measures parts of the ledger.
build_bench() {
  prepare_bench
  program=$bench
  say_where
}

# Proves and builds crates/chainspace, which is `program` then.
build_chainspace() {
  "$top/chainspace" replay <"$top/examples/empty-schedule.schedule" >/dev/null
  program=$top/crates/chainspace/out/chainspace
  say_where
}

# Builds bench/plain.c, the plain programs to compare with: `plain`.
build_plain() {
  cc -O2 -o "$work/plain" "$top/bench/plain.c"
  plain=$work/plain
}

# The processor time of a call in seconds, its own and the system's for it. A call that fails ends the script.
seconds_of() {
  local used
  used=$( { TIMEFORMAT='%3U %3S'; time "$@" >/dev/null 2>"$work/errors"; } 2>&1) || {
    echo "bench: '$*' failed: $(head -1 "$work/errors")" >&2
    return 1
  }
  awk '{ printf "%.3f\n", $1 + $2 }' <<<"$used"
}

# The least processor time of five runs of each of these functions, which take turns: one number a function.
least_times() {
  local name used round
  local -A least=()
  for round in 1 2 3 4 5; do
    for name in "$@"; do
      used=$(seconds_of "$name") || return 1
      least[$name]=$(awk -v a="${least[$name]:-$used}" -v b="$used" 'BEGIN { print (b < a ? b : a) }')
    done
  done
  for name in "$@"; do printf '%s ' "${least[$name]}"; done
  echo
}

# What the awk programs of the scripts share: a ratio, and a time less that of the empty run, none below a thousandth.
shared='
function least(a) { return a > 0.001 ? a : 0.001 }
function less(a, b) { return least(a - b) }
function ratio(a, b) { return a / least(b) }
'
