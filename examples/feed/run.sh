#!/bin/sh
# Tries the whole path of README.md without a network: it makes a stream of page changes an event file, wdq replays it, the script
# reconciles what the side output leaves in doubt, and wdq replays again. It needs jq, and says whether the output is that of expected.txt.
case ${1-} in -h | --help) sed -n '2,3s/^# \{0,1\}//p' "$0"; exit 0 ;; esac
cd "$(dirname "$0")" || exit 2
work=$(mktemp -d) || exit 2
trap 'rm -rf "$work"' EXIT
command -v jq >/dev/null || { echo "passed over: jq is missing"; exit 0; }

jq -R -c -f events.jq < stream.txt > "$work/changes.jsonl" || exit 2
jq -c -n --argjson delay 10 --argjson every 5 -f watermarks.jq < "$work/changes.jsonl" > "$work/events.jsonl" || exit 2
"${WDQ:-../../wdq}" replay --from pages --state --side < "$work/events.jsonl" > "$work/first.txt" || exit 2

sh doubtful.sh < "$work/first.txt" > "$work/doubtful.txt"
jq -c --arg time 2024-05-01T11:00:00Z --argjson deleted '{}' -f reconcile.jq < now.json >> "$work/events.jsonl" || exit 2
"${WDQ:-../../wdq}" replay --from pages --export --state --side < "$work/events.jsonl" > "$work/second.txt" || exit 2

{ echo "first run"; cat "$work/first.txt"; echo "in doubt"; cat "$work/doubtful.txt"; echo "second run"; cat "$work/second.txt"; } | tee "$work/all.txt"
if cmp -s "$work/all.txt" expected.txt; then echo "as expected"; else echo "not as expected.txt"; exit 1; fi
