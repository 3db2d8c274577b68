#!/usr/bin/env bash
# Measures what proofs cost, in seconds of processor time, and prints tables in Markdown as docs/GATE.md has them.
#
#   scripts/costs.sh [ROWS]             what the gate costs from nothing: the parts, the dearest crates (ROWS of them, 12 without),
#                                       and the longest chain of crates that wait for one another
#   scripts/costs.sh --again [ROWS]     the same tables of the last run, which stand in out/costs.txt
#   scripts/costs.sh --functions CRATE [ROWS]   the dearest functions of a crate
#   scripts/costs.sh --sizes CRATE [ROWS]       the largest functions of a built library, with no check: the larger, the dearer
#
# The first runs `rt ci --anew` in this checkout, an hour on four processors, and looks at its processes twice a second, so it misses up
# to half a second of each. `--functions` proves the crates below and then checks the crate from nothing by one processor; a function takes
# the time until its files were written. Needs the Rattle kit, `rt` on PATH, and `--sizes` jq. Ends with 1 if something isn't proved, and with 2 if it can't run.
top=$(cd "$(dirname "$(readlink -f "${BASH_SOURCE[0]}")")/.." && pwd) || exit 2
measured=$top/out/costs.txt
# Of each process: its crate and part, and the hundredths of a second that it has used.
declare -A names=() used=()

usage() {
  sed -n '2,13s/^# \{0,1\}//p' "${BASH_SOURCE[0]}"
}

give_up() {
  echo "costs.sh: $1" >&2
  exit 2
}

# --- A whole gate ---

# Sets `name` to the crate and the part that a process of the gate works on, `-` where it is no prover; to nothing if it isn't the gate's.
name_process() {
  local process=$1 at words=() crate=- part=proofs
  name=
  grep -qsz "^WDQ_COSTS=$$\$" "$process/environ" || return 0
  mapfile -d '' -t words 2>/dev/null <"$process/cmdline"
  for ((at = 0; at < ${#words[@]}; at++)); do
    [ "${words[at]}" != --crate-name ] || crate=${words[at + 1]}
    [ "${words[at]}" != --test ] || part=tests
  done
  [[ $(readlink "$process/cwd") != */rt-edit* ]] || part=edits
  name="$crate $part"
}

# Fills `fields` with what the kernel says of a process, from its state on.
read_fields() {
  { IFS= read -r line <"/proc/$1/stat"; } 2>/dev/null && read -ra fields <<<"${line##*) }"
}

# Notes what each process of the gate has used so far. None began before the gate did, at `begun`.
sample() {
  local process line fields key name
  for process in /proc/[0-9]*; do
    process=${process#/proc/}
    if ! read_fields "$process" || ((fields[19] < begun)); then
      continue
    fi
    key=$process-${fields[19]}
    # One that was no prover may have become one.
    case ${names[$key]-?} in
      '?' | '- '*)
        name_process "/proc/$process"
        names[$key]=${name:-${names[$key]-}}
        ;;
    esac
    [ -z "${names[$key]}" ] || used[$key]=$((fields[11] + fields[12]))
  done
}

# Writes down what each crate took for each part.
write_down() {
  local key
  mkdir -p "${measured%/*}" || give_up "${measured%/*} can't be written"
  for key in "${!used[@]}"; do
    echo "${names[$key]} ${used[$key]}"
  done | awk '{ sum[$1 " " $2] += $3 / 100 } END { for (name in sum) printf "%s %.1f\n", name, sum[name] }' | sort >"$measured"
}

# Runs the gate from nothing and measures it.
measure() {
  local gate status line fields begun
  (cd "$top" && exec env WDQ_COSTS=$$ rt ci --anew) </dev/null >&2 &
  gate=$!
  read_fields "$gate" && begun=${fields[19]}
  trap 'kill "$gate" 2>/dev/null; exit 130' INT TERM HUP
  while kill -0 "$gate" 2>/dev/null; do
    sample
    sleep 0.5
  done
  wait "$gate"
  status=$?
  write_down
  return "$status"
}

# Prints the three tables from what was written down.
print_tables() {
  awk -v rows="$1" '
    function minutes(seconds) { return sprintf("%.0f", seconds / 60) }
    function row(name, proofs, tests, edits) { printf "| %s | %.0f | %.0f | %.0f |\n", name, proofs, tests, edits }
    FNR == NR && $1 == "-" { rest += $3; next }
    FNR == NR { cost[$1, $2] = $3; all[$2] += $3; total[$1] += $3; next }
    /^[a-z]/ {
      sub(/:.*/, "", $1); crates++
      longest = 0; before = ""
      for (at = 2; at <= NF; at++) if (chain[$at] > longest) { longest = chain[$at]; before = way[$at] ", " }
      chain[$1] = longest + cost[$1, "proofs"]; way[$1] = before "`" $1 "`"
      if (chain[$1] > chain[last]) last = $1
    }
    END {
      print "| Part | Minutes |\n|---|---|"
      print "| proofs | " minutes(all["proofs"]) " |\n| must-fail edits | " minutes(all["edits"]) " |\n| tests | " minutes(all["tests"]) " |\n| compiling and the rest | " minutes(rest) " |"
      print "\n| Crate | Proofs | Tests | Edits |\n|---|---|---|---|"
      for (shown = 0; shown < rows; shown++) {
        dearest = ""
        for (crate in total) if (dearest == "" || total[crate] > total[dearest]) dearest = crate
        if (dearest == "") break
        row("`" dearest "`", cost[dearest, "proofs"], cost[dearest, "tests"], cost[dearest, "edits"])
        for (part in all) all[part] -= cost[dearest, part]
        delete total[dearest]
      }
      if (shown < crates) row("the other " crates - shown, all["proofs"], all["tests"], all["edits"])
      printf "\nThe longest chain takes %.0f seconds: %s.\n", chain[last], way[last]
    }' "$measured" "$top/crates.txt"
}

# --- The functions of one crate ---

# Checks a crate from nothing, over the libraries that are built, and keeps what it writes in the room.
check_anew() {
  local crate=$1 root=src/lib.rt kit line library words
  kit=$(dirname "$(rt doc)")
  line=$(grep "^$crate:" "$top/crates.txt")
  [ ! -e src/main.rt ] || root=src/main.rt
  words=(--extern "std=$kit/rlibs/std.rlib" -L "dependency=$kit/rlibs")
  for library in ${line#*:}; do
    if [ -d "$kit/rlibs/$library.rlib" ]; then
      words+=(--extern "$library=$kit/rlibs/$library.rlib")
    else
      words+=(--extern "$library=$top/crates/$library/out/rlib/$library.rlib")
    fi
  done
  for library in "$top"/crates/*/out/rlib; do
    words+=(-L "dependency=$library")
  done
  "$kit/bin/rattle" check --crate-name "$crate" "$root" "${words[@]}" --antt-project "$kit/rattle/logic/antt-project.json" \
    --logic-built "$kit/logic_built" --incremental "$room" --jobs 1 </dev/null >"$room.log" 2>&1
}

# Prints the dearest functions by the files of the check, which come one after the other.
print_functions() {
  find "$room" -type f -printf '%T@ %f\n' | sort -n | awk -v rows="$1" -v crate="$2" -v begun="$3" '
    { took = $1 - begun; begun = $1; sub(/(\.decls)?\.oantt$/, "", $2); name = $2; word = name; sub(/.*\./, "", word) }
    index(name, crate "-proofs.") != 1 && index(name, "Rattle-" crate "-proofs.") != 1 { rest += took; next }
    { sub(/^(Rattle-)?[a-z0-9_]*-proofs\./, "", name); sub(/\.[^.]*$/, "", name); sum[name] += took; part[name, word] += took }
    END {
      print "| Function | Seconds | Translation | Goals |\n|---|---|---|---|"
      for (shown = 0; shown < rows; shown++) {
        dearest = ""
        for (name in sum) if (dearest == "" || sum[name] > sum[dearest]) dearest = name
        if (dearest == "") break
        printf "| `%s` | %.1f | %.1f | %.1f |\n", dearest, sum[dearest], part[dearest, "Lts"], part[dearest, "Proof"]
        delete sum[dearest]
      }
      for (name in sum) others += sum[name]
      printf "| the other functions | %.1f | | |\n| what they stand on | %.1f | | |\n", others, rest
    }'
}

# Measures the functions of a crate.
measure_functions() {
  local crate=$1 rows=$2 begun
  grep -q "^$crate:" "$top/crates.txt" || give_up "crates.txt has no crate $crate"
  cd "$top/crates/$crate" || exit 2
  rt check >&2 || exit 1
  room=$(mktemp -d) || exit 2
  trap 'rm -rf "$room" "$room.log"' EXIT
  trap 'exit 130' INT TERM HUP
  begun=$(date +%s.%N)
  check_anew "$crate" || { cat "$room.log" >&2 && exit 1; }
  print_functions "$rows" "$crate" "$begun"
}

# Prints the largest functions of a library that is built, in kilobytes of what they are compiled to.
print_sizes() {
  local crate=$1 rows=$2 built=$top/crates/$1/out/rlib/$1.rlib/toolchain/mir.json
  command -v jq >/dev/null || give_up 'jq is missing'
  [ -e "$built" ] || give_up "$built isn't there: run 'rt lib' in crates/$crate first"
  printf '| Function | kB |\n|---|---|\n'
  jq -r '.[] | "\(.[1].body | tojson | length) \(.[0])"' "$built" | sort -rn | awk -v rows="$rows" 'NR <= rows { printf "| `%s` | %.1f |\n", $2, $1 / 1000 }'
}

# Ends where the words are not understood.
refuse_words() {
  usage >&2
  exit 64
}

action=measure
case $#-${1-} in
  *--h | *---help) usage && exit 0 ;;
  *---again) action=again && shift ;;
  [23]---functions) action=functions crate=$2 && shift 2 ;;
  [23]---sizes) action=sizes crate=$2 && shift 2 ;;
esac
rows=${1-12}
[[ $# -le 1 && $rows =~ ^[1-9][0-9]{0,3}$ ]] || refuse_words
if [ "$action" = again ]; then
  [ -s "$measured" ] || give_up "$measured isn't there: run scripts/costs.sh first"
  print_tables "$rows"
  exit
fi
if [ "$action" = sizes ]; then
  print_sizes "$crate" "$rows"
  exit
fi
command -v rt >/dev/null || give_up "the Rattle toolchain's command 'rt' is not on PATH; README.md names the kit"
if [ "$action" = functions ]; then
  measure_functions "$crate" "$rows"
else
  measure || exit 1
  print_tables "$rows"
fi
