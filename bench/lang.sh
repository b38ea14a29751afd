#!/usr/bin/env bash
# Prints how many megabytes a second of a contract text of 64 KiB are read, and read and accepted, the time as a ratio to that in
# which Python's own reader makes a tree of a text of the same statements and the same length, and how it compares with
# that of half the text. The time of making the text is taken off. Proves and builds crates/cs_bench first; it takes python3.
. "$(dirname "${BASH_SOURCE[0]}")/common.sh"
build_bench

# As many methods of 1,024 bytes, each of the 20 statements that cs_bench writes, read so many times.
cat >"$work/read.py" <<'PYTHON'
import ast, sys

methods, rounds = int(sys.argv[1]), int(sys.argv[2])
text = ""
for number in range(methods):
    method = "def m%02d():\n" % number + ' if 1 < 2 and not (3 == 4 - 5 * len(b"")): pass\n' * 20
    text += method + "#" + " " * (1024 - len(method) - 2) + "\n"
assert len(text) == 1024 * methods
for _ in range(rounds):
    ast.parse(text)
PYTHON

rounds=200
python_rounds=20
ours_empty() { "$program" "$word" 64 0; }
ours_half() { "$program" "$word" 32 "$rounds"; }
ours_full() { "$program" "$word" 64 "$rounds"; }
python_empty() { python3 "$work/read.py" 64 0; }
python_full() { python3 "$work/read.py" 64 "$python_rounds"; }

for word in parse accept; do
  times=$(least_times ours_empty ours_half ours_full python_empty python_full)
  awk -v word="$word" -v rounds="$rounds" -v python_rounds="$python_rounds" "$shared"'{
    half = less($2, $1) / rounds
    full = less($3, $1) / rounds
    python = less($5, $4) / python_rounds
    printf "%s: %.1f megabytes a second, %.2f times the time of ast.parse of Python; twice the text takes %.2f times the time\n", word, 65536 / full / 1000000, full / python, full / half
  }' <<<"$times"
done
