#!/usr/bin/env bash
# Times the built program on designs that awk makes, and prints a table in Markdown.
# It builds nothing: run `rt run` in crates/vwires first. Use: bench/run.sh [plan] [FOLDER], where the texts go (default /tmp/vwires-bench);
# `plan` asks for the table of plans that are made, alone. bench/plans.py compares the plans of two programs.
set -u
only=
[ "${1:-}" = plan ] && { only=plan; shift; }
top=$(cd "$(dirname "$0")/.." && pwd)
program=$top/crates/vwires/out/vwires
folder=${1:-/tmp/vwires-bench}
[ -x "$program" ] || { echo "no program at $program: run 'rt run' in crates/vwires" >&2; exit 1; }
mkdir -p "$folder" && cd "$folder" || exit 1

# ---- texts

# statements BYTES FORMAT: a model with so many bytes of one statement, whose format takes a number
statements() {
  awk -v bytes="$1" -v format="$2\n" 'BEGIN {
    printf ".model m\n.inputs a b\n.outputs a\n"
    for (n = size = 0; size < bytes - 128; n++) { text = sprintf(format, n); printf "%s", text; size += length(text) }
    printf ".end\n" }'
}
# models BYTES: one-line models
models() { awk -v bytes="$1" 'BEGIN { for (n = 0; size < bytes - 32; n++) { text = ".model m" n "\n"; printf "%s", text; size += length(text) } }'; }
# words BYTES: one line with so many words
words() { awk -v bytes="$1" 'BEGIN { printf ".model m\n.names"; for (size = 16; size < bytes; size += 2) printf " a"; printf "\n" }'; }
# ports BYTES: one model with so many inputs
ports() { awk -v bytes="$1" 'BEGIN { printf ".model m\n.inputs"; for (n = 0; size < bytes - 32; n++) { text = " i" n; printf "%s", text; size += length(text) } printf "\n.end\n" }'; }
# bindings BYTES: one placed model with so many bindings
bindings() { awk -v bytes="$1" 'BEGIN { printf ".model m\n.subckt n"; for (n = 0; size < bytes - 40; n++) { text = " f" n "=a"; printf "%s", text; size += length(text) } printf "\n.end\n" }'; }
# gates COUNT: a chain of tables with four inputs and four rows over the eight nets before each, half of it behind latches
gates() {
  awk -v count="$1" 'BEGIN {
    x = 7; printf ".model m\n.inputs i0 i1 i2 i3 i4 i5 i6 i7\n.outputs n%d\n", count - 1
    for (n = 0; n < count; n++) {
      printf ".names"
      for (k = 0; k < 4; k++) { x = (75 * x + 74) % 65537; t = n - 1 - x % 8; printf " %s", t < 0 ? "i" (t + 8) : "n" t }
      printf " n%d\n11-- 1\n-01- 1\n0--1 1\n1-00 1\n", n
    }
    printf ".end\n" }'
}
# wide COUNT INPUTS ROWS: tables with so many inputs, all of the same nets, and so many rows, one mark in twelve of which
# looks at its input
wide() {
  awk -v count="$1" -v inputs="$2" -v rows="$3" 'BEGIN {
    x = 7; names = ""
    for (k = 0; k < inputs; k++) names = names " i" k
    printf ".model m\n.inputs%s\n.outputs n%d\n", names, count - 1
    for (n = 0; n < count; n++) {
      printf ".names%s n%d\n", names, n
      for (r = 0; r < rows; r++) {
        row = ""
        for (k = 0; k < inputs; k++) { x = (75 * x + 74) % 65537; row = row (x % 12 ? "-" : int(x / 12) % 2) }
        print row " 1"
      }
    }
    printf ".end\n" }'
}
# placed_outputs OUTPUTS COUNT: a model with so many outputs that nobody binds, placed so many times
placed_outputs() {
  awk -v outputs="$1" -v count="$2" 'BEGIN {
    printf ".model top\n.inputs a\n.outputs z\n"
    for (n = 0; n < count; n++) printf ".subckt wide i=a\n"
    printf ".names a z\n1 1\n.end\n.model wide\n.inputs i\n.outputs"
    for (n = 0; n < outputs; n++) printf " o%d", n
    printf "\n.names i o0\n1 1\n.end\n" }'
}
# chain COUNT: models that each place the next one
chain() {
  awk -v count="$1" 'BEGIN { for (n = 0; n < count; n++) { printf ".model m%d\n", n; if (n + 1 < count) printf ".subckt m%d\n", n + 1 } }'
}
# circle COUNT: the same, and the last one places the first
circle() { awk -v count="$1" 'BEGIN { for (n = 0; n < count; n++) printf ".model m%d\n.subckt m%d\n", n, (n + 1) % count }'; }
# doubling COUNT: models that each place the next one twice
doubling() {
  awk -v count="$1" 'BEGIN { for (n = 0; n < count; n++) { printf ".model m%d\n", n; if (n + 1 < count) printf ".subckt m%d\n.subckt m%d\n", n + 1, n + 1 } }'
}
# hierarchy GROUPS SIZE FURTHER CELLS: a counter of one bit for each block, in so many groups of so many blocks and some
# further blocks at the top, and a chain of gates that makes the cells so many
hierarchy() {
  awk -v groups="$1" -v size="$2" -v further="$3" -v cells="$4" 'BEGIN {
    rest = cells - 3 * (groups * size + further)
    printf ".model top\n.inputs en\n.outputs c%d f%d\n", groups + further, rest - 1
    printf ".names en c0\n1 1\n"
    for (n = 0; n < groups + further; n++) printf ".subckt %s en=c%d carry=c%d\n", n < groups ? "group" : "block", n, n + 1
    for (n = 0; n < rest - 1; n++) printf ".names %s f%d\n1 1\n", n ? "f" n : "en", n + 1
    printf ".end\n.model group\n.inputs en\n.outputs carry\n"
    for (n = 0; n < size; n++) printf ".subckt block en=%s carry=%s\n", n ? "c" n : "en", n + 1 < size ? "c" (n + 1) : "carry"
    printf ".end\n.model block\n.inputs en\n.outputs carry\n"
    printf ".names en q d\n10 1\n01 1\n.names en q carry\n11 1\n.latch d q 0\n.end\n" }'
}
# clocks COUNT WIDTH: rows of a stimulus
clocks() {
  awk -v count="$1" -v width="$2" 'BEGIN { x = 3
    for (n = 0; n < count; n++) { row = ""; for (k = 0; k < width; k++) { x = (75 * x + 74) % 65537; row = row x % 2 } print row } }'
}
# columns COUNT: a design with so many inputs, of which a table reads two
columns() {
  awk -v count="$1" 'BEGIN { printf ".model m\n.inputs"; for (n = 0; n < count; n++) printf " i%d", n
    printf "\n.outputs y\n.names i0 i1 y\n11 1\n.end\n" }'
}
# again COUNT FILE: the text of a file so many times
again() { for ((n = 0; n < $1; n++)); do cat "$2"; done; }
# crowd: 32,768 latches, and as many tables of 32 latches each, so that the tables of each of 32 chips read every latch
crowd() {
  awk 'BEGIN {
    printf ".model m\n.inputs a\n.outputs\n"
    for (n = 0; n < 32768; n++) printf ".latch l%d l%d 0\n", n, n
    for (n = 0; n < 32768; n++) { printf ".names"; for (k = 0; k < 32; k++) printf " l%d", 32 * int(n / 32) + k; printf " g%d\n", n }
    printf ".end\n" }'
}
# crowd_board: 32 chips, each joined to each other and the host to the first
crowd_board() {
  awk 'BEGIN {
    printf "board 1\nchips 32\ncells 65536\nsettle 1\npins 4096\nlink 0 1 64\nlink 1 0 64\n"
    for (a = 1; a <= 32; a++) for (b = 1; b <= 32; b++) if (a != b) printf "link %d %d 64\n", a, b }'
}
# crowd_plan LAST: the cells are dealt to the chips in turn, and each latch has a wire to each other chip; the last hop is
# in this microcycle
crowd_plan() {
  awk -v last="$1" 'BEGIN {
    printf "plan 1 65536 1015808 17\nchips"
    for (n = 0; n < 65536; n++) printf " %d", n % 32 + 1
    printf "\n"
    for (n = 0; n < 32768; n++) {
      from = n % 32 + 1; k = int(n / 32)
      for (to = 1; to <= 32; to++) if (to != from) {
        at = (n == 32767 && to == 31) ? last : int(k / 64)
        printf "wire %d %d 1\nhop %d %d %d %d\n", n + 1, to, from, to, k % 64, at
      }
    }
    printf "end\n" }'
}
# grid SIDE STEP: cells in a square; each reads the ones left of it and above it, and every eighth column is latches. They
# are written row by row where the step is 1, and mixed where it is a prime that doesn't divide the side
grid() {
  awk -v side="$1" -v step="$2" 'BEGIN {
    printf ".model m\n.inputs a b\n.outputs x%dy%d\n", side - 1, side - 1
    for (n = 0; n < side * side; n++) {
      place = n * step % (side * side); x = place % side; y = int(place / side)
      left = x ? "x" (x - 1) "y" y : "a"; above = y ? "x" x "y" (y - 1) : "b"
      if (x % 8 == 7) printf ".latch %s x%dy%d 0\n", left, x, y
      else printf ".names %s %s x%dy%d\n10 1\n01 1\n", left, above, x, y
    }
    printf ".end\n" }'
}
# tree COUNT: each cell reads the two below it; the leaves are latches
tree() {
  awk -v count="$1" 'BEGIN {
    printf ".model m\n.inputs a\n.outputs t1\n"
    for (n = count; n >= 1; n--) {
      if (2 * n + 1 > count) printf ".latch a t%d 0\n", n
      else printf ".names t%d t%d t%d\n11 1\n", 2 * n, 2 * n + 1, n
    }
    printf ".end\n" }'
}
# window COUNT REACH: tables that read three of the nets before them within a window; every tenth cell is a latch
window() {
  awk -v count="$1" -v reach="$2" 'BEGIN {
    x = 7; printf ".model m\n.inputs i\n.outputs n%d\n", count - 1
    for (n = 0; n < count; n++) {
      for (k = 0; k < 3; k++) { x = (75 * x + 74) % 65537; t = n - 1 - x % reach; net[k] = t < 0 ? "i" : "n" t }
      if (n % 10 == 9) printf ".latch %s n%d 0\n", net[0], n
      else printf ".names %s %s %s n%d\n11- 1\n--1 1\n", net[0], net[1], net[2], n
    }
    printf ".end\n" }'
}
# mesh ROWS COLUMNS ROOM WIDTH DELAY: chips in rows, each linked to its neighbours and to the host
mesh() {
  awk -v rows="$1" -v columns="$2" -v room="$3" -v width="$4" -v delay="$5" 'BEGIN {
    chips = rows * columns
    printf "board 2\nchips %d\ncells %d\nsettle 0\npins 4096\n", chips, room
    for (a = 0; a <= chips; a++) for (b = 0; b <= chips; b++) {
      p = a - 1; q = b - 1
      beside = (q == p + 1 && q % columns) || (p == q + 1 && p % columns) || q == p + columns || p == q + columns
      if (a != b && (a == 0 || b == 0 || beside)) printf "link %d %d %d %d\n", a, b, width, delay
    } }'
}
# wires_in_blocks DESIGN ROOM: the number of wires where the cells are dealt to the chips in their order
wires_in_blocks() {
  awk -v room="$2" '
    function reads(net, node) { if (home[net] != node && !((net, node) in seen)) { seen[net, node] = 1; wires++ } }
    FNR == 1 { pass++; cell = 0 }
    $1 == ".inputs" && pass == 1 { for (k = 2; k <= NF; k++) home[$k] = 0 }
    $1 == ".names" || $1 == ".latch" {
      node = int(cell / room) + 1; cell++
      if (pass == 1) home[$1 == ".names" ? $NF : $3] = node
      else if ($1 == ".latch") reads($2, node)
      else for (k = 2; k < NF; k++) reads($k, node)
    }
    $1 == ".outputs" && pass == 2 { for (k = 2; k <= NF; k++) reads($k, 0) }
    END { print wires + 0 }' "$1" "$1"
}
# halves COUNT STEP: each cell reads three others, each within the block of eight cells around it, or half as often within
# the block twice as large, and so on; every fourth cell is a latch. Reads go to earlier cells or to latches. The count is a
# multiple of 8, and the step is as for the grid
halves() {
  awk -v count="$1" -v step="$2" 'BEGIN {
    seed = 7
    for (n = 0; n < count; n++) for (k = 0; k < 3; k++) {
      size = 8
      do { seed = (75 * seed + 74) % 65537; if (seed % 2) break; size *= 2 } while (size < count)
      seed = (75 * seed + 74) % 65537; other = int(n / size) * size + seed % size
      if (other >= n) other = 4 * int(other / 4) + 3
      read[n, k] = "n" other
    }
    printf ".model m\n.inputs\n.outputs n%d\n", count - 1
    for (m = 0; m < count; m++) {
      n = m * step % count
      if (n % 4 == 3) printf ".latch %s n%d 0\n", read[n, 0], n
      else printf ".names %s %s %s n%d\n11- 1\n--1 1\n", read[n, 0], read[n, 1], read[n, 2], n
    }
    printf ".end\n" }'
}
# hop_times BOARD PLAN DESIGN: for each hop of the plan its link, the width of the link, the first microcycle in which the hop
# could be sent if all links had pins enough, and how many microcycles the plan needs at least behind that microcycle
hop_times() {
  awk '
    function later(microcycle, other) { return other > microcycle ? other : microcycle }
    FNR == 1 { file++ }
    file == 1 && $1 == "settle" { settle = $2 }
    file == 1 && $1 == "link" { width[$2, $3] = $4; delay[$2, $3] = $5 }
    file == 2 && $1 == "chips" { for (k = 2; k <= NF; k++) chip[k - 2] = $k }
    file == 2 && $1 == "wire" { net = $2; wire = net SUBSEP wires[net]++; ends[wire] = $3; hops = 0 }
    file == 2 && $1 == "hop" { route[wire, hops++] = $2 SUBSEP $3; lengths[wire] = hops }
    file == 3 && $1 == ".inputs" { for (k = 2; k <= NF; k++) number[$k] = inputs++ }
    file == 3 && ($1 == ".names" || $1 == ".latch") {
      gates[cells] = $1 == ".names"; number[gates[cells] ? $NF : $3] = inputs + cells
      reads[cells] = gates[cells] ? NF - 2 : 1
      for (k = 0; k < reads[cells]; k++) word[cells, k] = $(k + 2)
      cells++
    }
    END {
      for (c = 0; c < cells; c++) for (k = 0; k < reads[c]; k++) {
        u = read[c, k] = number[word[c, k]]
        if (gates[c] && u >= inputs && gates[u - inputs]) { waits[c]++; users[u, many[u]++] = c }
      }
      # the nets, each behind what it rests on
      for (n = 0; n < inputs; n++) order[nets++] = n
      for (c = 0; c < cells; c++) if (!gates[c] || !waits[c]) order[nets++] = inputs + c
      for (i = 0; i < nets; i++) { n = order[i]; for (k = 0; k < many[n]; k++) if (!--waits[users[n, k]]) order[nets++] = inputs + users[n, k] }
      for (i = 0; i < nets; i++) {
        n = order[i]; c = n - inputs; own = n < inputs ? 0 : chip[c]; gate = n >= inputs && gates[c]; lead = 0
        if (gate) for (k = 0; k < reads[c]; k++) lead = later(lead, there[read[c, k], own])
        there[n, own] = lead
        for (w = 0; w < wires[n]; w++) {
          wire = n SUBSEP w; at = lead + (gate ? settle : 0)
          for (h = 0; h < lengths[wire]; h++) { start[wire, h] = at; at += delay[route[wire, h]] }
          there[n, ends[wire]] = at
        }
      }
      for (c = 0; c < cells; c++) if (!gates[c]) {
        u = read[c, 0]
        if (u >= inputs && gates[u - inputs] && chip[u - inputs] == chip[c]) rest[u, chip[c]] = settle
      }
      for (i = nets - 1; i >= 0; i--) {
        n = order[i]; c = n - inputs; own = n < inputs ? 0 : chip[c]; gate = n >= inputs && gates[c]
        for (w = 0; w < wires[n]; w++) {
          wire = n SUBSEP w; after = rest[n, ends[wire]]
          for (h = lengths[wire] - 1; h >= 0; h--) {
            after += delay[route[wire, h]]; split(route[wire, h], end, SUBSEP)
            print end[1], end[2], width[route[wire, h]], start[wire, h], after - 1
          }
          rest[n, own] = later(rest[n, own], after + (gate ? settle : 0))
        }
        if (gate) for (k = 0; k < reads[c]; k++) rest[read[c, k], own] = later(rest[read[c, k], own], rest[n, own])
      }
    }' "$1" "$2" "$3"
}
# least_period BOARD PLAN DESIGN: a bound for the period, for these chips and routes: the longest path if no hop waits for a
# pin, and for each link, over all microcycles, what the hops need that start no earlier and have as much behind them
least_period() {
  hop_times "$1" "$2" "$3" | sort -k1,1n -k2,2n -k4,4nr | awk '
    function fullest() { for (k = 1; k <= count; k++) { need = start + int((k + width - 1) / width) + behind[k]; if (need > most) most = need } }
    { if ($1 != from || $2 != to) { fullest(); count = 0 } else if ($4 != start) fullest()
      from = $1; to = $2; width = $3; start = $4
      for (k = ++count; k > 1 && behind[k - 1] < $5; k--) behind[k] = behind[k - 1]
      behind[k] = $5 }
    END { fullest(); print most + 0 }'
}

# ---- one run

# watch PID: keeps the peak of memory of a process (kB) in the file peak, until it ends
watch() {
  while [ -r "/proc/$1/status" ]; do
    while read -r key value _; do [ "$key" = VmHWM: ] && echo "$value" >peak; done <"/proc/$1/status" 2>/dev/null
    sleep 0.02
  done
}
# measured WORD..: runs the program; sets status, seconds and peak (MB)
measured() {
  local start end
  echo 0 >peak
  start=$(date +%s%N)
  "$program" "$@" >out 2>err &
  local pid=$!
  watch $pid &
  local watcher=$!
  wait $pid
  status=$?
  end=$(date +%s%N)
  wait $watcher
  seconds=$(awk -v a="$start" -v b="$end" 'BEGIN { printf "%.2f", (b - a) / 1e9 }')
  peak=$(($(cat peak) / 1024))
}
# row NAME DESIGN STIMULUS: one line of the table of design texts
row() {
  measured sim "$2" "$3"
  echo "| $1 | $(($(stat -c %s "$2") / 1000)) | $status | $(head -c 60 err) | $seconds | $peak |"
}
# simulated NAME TABLES CLOCKS DESIGN STIMULUS: one line of the table of simulations, of a design with so many tables over so
# many clocks
simulated() {
  measured sim "$4" "$5"
  expect 0 ""
  echo "| $1 | $3 | $seconds | $peak | $(awk -v n="$2" -v c="$3" -v s="$seconds" 'BEGIN { printf "%.0f", n * c / s / 1e6 }') |"
}
# expect STATUS MESSAGE: says so where the last run ended in another way. Of a long message the front is given
expect() {
  [ "$status" = "$1" ] && [ "$(head -c ${#2} err)" = "$2" ] || echo "expected status $1 and '$2'" >&2
}

# stimulus_row NAME DESIGN STIMULUS: one line of the table of stimuli, with md5sum of the stimulus twice beside it
stimulus_row() {
  local start end sums
  start=$(date +%s%N); md5sum "$3" >/dev/null; md5sum "$3" >/dev/null; end=$(date +%s%N)
  sums=$(awk -v a="$start" -v b="$end" 'BEGIN { printf "%.2f", (b - a) / 1e9 }')
  measured sim "$2" "$3"
  echo "| $1 | $(($(stat -c %s "$3") / 1000000)) | $(($(stat -c %s out) / 1000000)) | $status | $seconds | $sums | $peak |"
}

if [ -z "$only" ]; then
echo "| design | text, kB | status | message | seconds | peak, MB |"
echo "|---|---|---|---|---|---|"
: > none.stim
for bytes in 1000000 16700000; do
  statements $bytes '.names a b n%d\n11 1' > tables.blif
  row "tables of one row" tables.blif none.stim
  statements $bytes '.latch a n%d 0' > latches.blif
  row "latches" latches.blif none.stim
  models $bytes > models.blif
  row "models of one line" models.blif none.stim
  words $bytes > words.blif
  row "a line of words" words.blif none.stim
  ports $bytes > ports.blif
  row "inputs of one model" ports.blif none.stim
  bindings $bytes > bindings.blif
  row "bindings of one placed model" bindings.blif none.stim
done
echo
echo "| stimulus | text, MB | trace, MB | status | seconds | md5sum twice | peak, MB |"
echo "|---|---|---|---|---|---|---|"
columns 8 > eight.blif
clocks 100000 8 > part.stim
again 222 part.stim > long.stim
stimulus_row "22,200,000 rows of 8 bits" eight.blif long.stim
rm long.stim
echo "hold 20000000" > hold.stim
stimulus_row 'one `hold` line of 20,000,000 clocks' eight.blif hold.stim
awk 'BEGIN { for (n = 0; n < 2000000; n++) print (n % 2) ? "hold 3" : "10101010" }' > holds.stim
stimulus_row '1,000,000 rows, a `hold 3` behind each: 4,000,000 clocks' eight.blif holds.stim
columns 4096 > wide.blif
clocks 1000 4096 > part.stim
again 49 part.stim > long.stim
stimulus_row "49,000 rows of 4,096 bits" wide.blif long.stim
rm -f long.stim out
{ printf '#'; head -c 200000000 /dev/zero | tr '\0' 'x'; printf '\n10101010\n'; } > comment.stim
stimulus_row "a comment of 200 MB, and a row" eight.blif comment.stim
{ head -c 200000000 /dev/zero | tr '\0' '1'; printf '\n'; } > row.stim
stimulus_row "a row of 200,000,000 bits, refused" eight.blif row.stim
expect 5 'stimulus 3: line 1: found 200000000 bits, wanted 8'
rm -f comment.stim row.stim
echo
echo "| design | text, kB | status | message | seconds | peak, MB |"
echo "|---|---|---|---|---|---|"
clocks 4 1 > short.stim
placed_outputs 1000000 60000 > wide.blif
row "a model of a million outputs, none bound, placed 60,000 times" wide.blif short.stim
expect 0 ''
circle 100000 > circle.blif
row "a circle of 100,000 models" circle.blif none.stim
expect 1 'design 14: recursive models m0 m1 m2'
chain 500000 > chain.blif
row "a chain of 500,000 models" chain.blif none.stim
expect 1 'design 18: more than 65536 instances'
doubling 40 > doubling.blif
row "forty models that each place the next twice" doubling.blif none.stim
expect 1 'design 18: more than 65536 instances'
echo
echo "| design | clocks | seconds | peak, MB | million tables a second |"
echo "|---|---|---|---|---|"
gates 4000 > gates.blif
clocks 10000 8 > gates.stim
simulated "4,000 tables of four inputs" 4000 10000 gates.blif gates.stim
gates 65000 > gates.blif
clocks 500 8 > gates.stim
simulated "65,000 tables of four inputs" 65000 500 gates.blif gates.stim
wide 2000 100 50 > wide.blif
clocks 1000 100 > wide.stim
simulated "2,000 tables of 100 inputs and 50 rows" 2000 1000 wide.blif wide.stim
hierarchy 199 99 99 65536 > hierarchy.blif
clocks 200 1 > hierarchy.stim
simulated "45,736 tables and 19,800 latches in 20,000 instances" 45736 200 hierarchy.blif hierarchy.stim
echo
echo "Cores: $(nproc). Load: $(cut -d ' ' -f 1 /proc/loadavg)."

echo
echo "| plan | text, kB | status | message | seconds | peak, MB |"
echo "|---|---|---|---|---|---|"
# checked NAME PLAN: one line of the table of plans
checked() {
  measured check crowd.blif crowd.board "$2"
  echo "| $1 | $(($(stat -c %s "$2") / 1000)) | $status | $(head -c 80 err) | $seconds | $peak |"
}
crowd >crowd.blif
crowd_board >crowd.board
crowd_plan 15 >sound.plan
crowd_plan 0 >broken.plan
crowd_plan 15 | head -n 2 >early.plan
checked "1,015,808 hops of 65,536 cells on 32 chips, sound" sound.plan
expect 0 ""
checked "the same, its last hop on a pin already in use" broken.plan
expect 4 "plan 13: wire "
checked "the same, cut off after its second line" early.plan
expect 4 "plan 2: line 3"

fi
echo
echo "| design | chips | wires in blocks | wires of the plan | period | bound | BOUND | SHORT | seconds | of report | peak, MB | period, delays of 3 | bound | BOUND | SHORT |"
echo "|---|---|---|---|---|---|---|---|---|---|---|---|---|---|---|"
# planned NAME CELLS ROWS COLUMNS WIDTH: one line of the table of plans that are made, of design.blif, with room for 3 % more
# cells, on links of a delay of 1 and of 3; BOUND and SHORT are those of report
planned() {
  local chips=$(($3 * $4)) delay line="" wires period made most bound short
  local room=$((($2 * 103 + 100 * chips - 1) / (100 * chips)))
  for delay in 1 3; do
    mesh "$3" "$4" $room "$5" $delay >mesh.board
    measured plan design.blif mesh.board
    expect 0 ""
    read -r _ _ _ wires period <out
    mv out made.plan
    made=$seconds
    most=$peak
    measured report design.blif mesh.board plan=made.plan
    expect 0 ""
    read -r _ _ _ _ _ _ bound short <out
    made="$made | $seconds | $most"
    bound="$(least_period mesh.board made.plan design.blif) | $bound | $short"
    [ $delay = 1 ] && line="$(wires_in_blocks design.blif $room) | $wires | $period | $bound | $made"
    [ $delay = 3 ] && line="$line | $period | $bound"
    measured check design.blif mesh.board made.plan
    expect 0 ""
  done
  echo "| $1 | $chips | $line |"
}
grid 32 1 >design.blif
planned "grid of 32 by 32" 1024 2 2 8
grid 255 1 >design.blif
planned "grid of 255 by 255" 65025 4 8 8
grid 255 7919 >design.blif
planned "the same, mixed" 65025 4 8 8
tree 4095 >design.blif
planned "tree of 4,095" 4095 4 4 8
tree 65535 >design.blif
planned "tree of 65,535" 65535 4 8 8
window 4000 64 >design.blif
planned "4,000 cells, window of 64" 4000 4 4 8
window 65000 1000 >design.blif
planned "65,000 cells, window of 1,000" 65000 4 8 8
halves 16384 7919 >design.blif
planned "halves of halves, 16,384 cells, mixed" 16384 4 8 8
halves 65536 7919 >design.blif
planned "halves of halves, 65,536 cells, mixed" 65536 4 8 8
[ -z "$only" ] || { echo; echo "Cores: $(nproc). Load: $(cut -d ' ' -f 1 /proc/loadavg)."; exit 0; }

echo
echo "| design | chips | clocks | hops a cell | period | sim | run, 1 worker | 2 | 4 | 1 : sim | 2 : 1 | 4 : 1 | peak MB, 1 worker | load |"
echo "|---|---|---|---|---|---|---|---|---|---|---|---|---|---|"
# by WORKERS: runs design.blif on mesh.board, and says how many seconds it took
by() {
  measured run design.blif mesh.board rows.stim plan=made.plan workers="$1"
  expect 0 ""
  cmp -s out trace.sim || echo "another trace with $1 workers" >&2
}
# speed CELLS CLOCKS SECONDS: million cells a second; ratio A B: how many times as fast as B seconds A seconds are
speed() { awk -v n="$1" -v c="$2" -v s="$3" 'BEGIN { printf "%.0f", n * c / (s > 0 ? s : 0.01) / 1e6 }'; }
ratio() { awk -v a="$1" -v b="$2" 'BEGIN { printf "%.2f", b / (a > 0 ? a : 0.01) }'; }
# ran NAME CELLS ROWS COLUMNS CLOCKS WIDTH: one line of the table of runs of design.blif on a mesh by a plan that was made before,
# over so many clocks of so many columns, all in one go. Speeds are in million cells a second, with reading and writing; ratios are of
# speeds. All write the same trace
ran() {
  local chips=$(($3 * $4)) hops period sim one two four memory
  mesh "$3" "$4" $((($2 * 103 + 100 * chips - 1) / (100 * chips))) 8 1 >mesh.board
  clocks "$5" "$6" >rows.stim
  measured plan design.blif mesh.board
  expect 0 ""
  mv out made.plan
  measured check design.blif mesh.board made.plan
  read -r _ _ hops period <out
  measured sim design.blif rows.stim
  expect 0 ""
  sim=$seconds
  mv out trace.sim
  by 1
  one=$seconds memory=$peak
  by 2
  two=$seconds
  by 4
  four=$seconds
  echo "| $1 | $chips | $5 | $(awk -v h="$hops" -v c="$2" 'BEGIN { printf "%.3f", h / c }') | $period | $(speed "$2" "$5" "$sim") | $(speed "$2" "$5" "$one") | $(speed "$2" "$5" "$two") | $(speed "$2" "$5" "$four") | $(ratio "$one" "$sim") | $(ratio "$two" "$one") | $(ratio "$four" "$one") | $memory | $(cut -d ' ' -f 1 /proc/loadavg) |"
}
for chips in "2 2" "4 4"; do
  grid 63 1 >design.blif
  ran "grid of 63 by 63" 3969 $chips 10000 2
  window 4000 64 >design.blif
  ran "4,000 cells, window of 64" 4000 $chips 10000 1
  grid 245 1 >design.blif
  ran "grid of 245 by 245" 60025 $chips 1000 2
  window 60000 400 >design.blif
  ran "60,000 cells, window of 400" 60000 $chips 1000 1
done

# sim beside Verilator's compiled program of the same netlist
echo
if command -v yosys >/dev/null && command -v verilator >/dev/null; then
  "$top/bench/merged.py" "$program" || echo "outputs differ" >&2
else
  echo "yosys or verilator isn't installed: no comparison" >&2
fi
