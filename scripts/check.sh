#!/usr/bin/env bash
# Runs the repository's own checks over the program, in at most ten minutes once it is built.
#
#   scripts/check.sh
#
# Prints a line for each: its name, how it went and the seconds that it took; below a check that failed its output. Each has a time limit.
# What needs a tool that is missing is named and passed over. The last line counts. Ends with 1 if a check failed, and with 2 if it can't run.
# WDQ names the program; without it, ./wdq builds it if needed.
top=$(cd "$(dirname "$(readlink -f "${BASH_SOURCE[0]}")")/.." && pwd) || exit 2
if [ $# -gt 0 ]; then
  sed -n '2,8s/^# \{0,1\}//p' "${BASH_SOURCE[0]}"
  [[ $1 == -h || $1 == --help ]] && exit 0
  exit 64
fi
built=$top/crates/wdq/out/wdq
WDQ=$(readlink -f "${WDQ:-$built}")
if [[ $WDQ != "$built" && ! -x $WDQ ]]; then
  echo "check.sh: WDQ names no program: $WDQ" >&2
  exit 2
fi
cd "$top" || exit 2
room=$(mktemp -d) || exit 2
child=
trap '[ -z "$child" ] || kill "$child" 2>/dev/null; rm -rf "$room"' EXIT
trap 'exit 130' INT TERM HUP PIPE
export WDQ PYTHONDONTWRITEBYTECODE=1
passed=0
failed=0
skipped=0

# Names what isn't tried, and why.
pass_over() {
  echo "$1: passed over: $2"
  skipped=$((skipped + 1))
}

# Runs a command for at most so many seconds, with its output in a file, and gives its status.
run_for() {
  local limit=$1
  shift
  timeout --kill-after=10 "$limit" "$@" </dev/null >"$room/output" 2>&1 &
  child=$!
  wait "$child"
  local status=$?
  child=
  return "$status"
}

# Counts a check that has run, and prints its lines.
judge() {
  local name=$1 status=$2 limit=$3 text
  if [ "$status" -ne 0 ]; then
    failed=$((failed + 1))
    [ "$status" -ne 124 ] || echo "it was stopped after $limit seconds" >>"$room/output"
    echo "$name: failed with status $status, $SECONDS s"
    tail -n 100 "$room/output" | sed 's/^/    /'
    return
  fi
  if grep -qv '^passed over: ' "$room/output" || [ ! -s "$room/output" ]; then
    passed=$((passed + 1))
    echo "$name: ok, $SECONDS s"
  fi
  while IFS= read -r text; do
    pass_over "$name" "$text"
  done < <(sed -n 's/^passed over: //p' "$room/output")
}

# Tries one check: its name, its limit in seconds, the tools that it needs, and its command.
check() {
  local name=$1 limit=$2 tools=$3 tool
  shift 3
  for tool in $tools; do
    if ! command -v "$tool" >/dev/null; then
      pass_over "$name" "$tool is missing"
      return
    fi
  done
  SECONDS=0
  run_for "$limit" "$@"
  judge "$name" $? "$limit"
}

# Tries a check that runs the program.
check_program() {
  if [ -x "$WDQ" ]; then
    check "$@"
  else
    pass_over "$1" 'the program is missing'
  fi
}

# Fills `shells` with the scripts for a shell, and `pythons` with those in Python.
find_scripts() {
  local file first
  while IFS= read -r -d '' file; do
    { IFS= read -r first <"$file"; } 2>/dev/null
    case $first in
      '#!'*sh | '# shellcheck shell='*) shells+=("$file") ;;
      '#!'*python3) pythons+=("$file") ;;
      *) [[ $file != *.py ]] || pythons+=("$file") ;;
    esac
  done < <(find . \( -name .git -o -name out -o -path ./crates \) -prune -o -type f -size -200k -print0 2>/dev/null)
}

# Runs the mirror's tests that need neither a wiki nor a store, by the system's Python.
check_mirror() {
  if /usr/bin/python3 -c 'import aiohttp, pytest' 2>/dev/null; then
    check_program mirror 240 '' /usr/bin/python3 -m pytest -q -p no:cacheprovider mirror/tests/test_{units,stream,lines,packages}.py
  else
    pass_over mirror 'python3-pytest or python3-aiohttp is missing'
  fi
}

run_checks() {
  local shells=() pythons=() run
  find_scripts
  check links 60 python3 scripts/check_links.py
  check manual 60 python3 scripts/check_manual.py
  check pictures 60 python3 python3 scripts/pictures.py --check
  check shellcheck 120 shellcheck shellcheck "${shells[@]}"
  check pyflakes 60 pyflakes3 pyflakes3 "${pythons[@]}"
  check wrapper 600 script scripts/try_wrapper.sh
  [ "$WDQ" != "$built" ] || check program 900 rt ./wdq drill --size 1
  for run in examples/*/run.sh; do
    check_program "${run%/run.sh}" 480 '' "$run"
  done
  check_program lean 240 python3 scripts/lean_streams.py "$WDQ"
  check_program refused 400 'python3 cc' scripts/refuse_memory.py --lean "$WDQ"
  check demonstration 60 python3 scripts/lean_demonstration.py --help
  check_program saves 300 '' scripts/kill_save.sh 20
  check_program pages 400 python3 scripts/slow_pages.py --once --most 20 "$WDQ"
  check_program commands 240 python3 python3 scripts/check_commands.py
  check_mirror
  check_program library 1200 'rt cc' scripts/library.sh --test
  check_program page 600 'rt chromium' scripts/page.sh --test
}

run_checks
echo "$passed passed, $failed failed, $skipped skipped"
[ "$failed" -eq 0 ]
