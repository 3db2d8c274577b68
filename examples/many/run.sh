#!/bin/sh
# Tries the scripts of this folder over a stream of 20,031 events (stream.awk): what parts give together is what one replay gives. It
# says each step, and what is missing; needs jq, and Debian's package python3-distributed for the steps with Dask.
# shellcheck disable=SC2086 # `words` is split into its words.
case ${1-} in -h | --help) sed -n '2,3s/^# \{0,1\}//p' "$0"; exit 0 ;; esac
cd "$(dirname "$0")" || exit 2
wdq=$(readlink -f "${WDQ:-../../wdq}")
work=$(mktemp -d) || exit 2
trap 'rm -rf "$work"' EXIT
LC_ALL=C
export LC_ALL
words="--from $work/pages --export --state --side"
failed=0

# Says how a step went.
told() {
  if [ "$2" -eq 0 ]; then echo "as expected: $1"; else echo "not as expected: $1"; failed=1; fi
}

# Whether two outputs are the same, the side output's lines in any order.
same() {
  for output in "$1" "$2"; do
    grep -v '^# side ' "$output" > "$output.rest"
    grep '^# side ' "$output" | sort > "$output.side"
  done
  cmp -s "$1.rest" "$2.rest" && cmp -s "$1.side" "$2.side"
}

command -v jq >/dev/null || { echo "passed over: jq is missing"; exit 0; }
mkdir "$work/pages"
awk -v size=6070 -v pages="$work/pages" -f stream.awk > "$work/events.jsonl" || exit 2
"$wdq" replay $words < "$work/events.jsonl" > "$work/whole.txt" || exit 2
echo "one replay of $(grep -c '"kind"' "$work/events.jsonl") events: $(grep '^# export' "$work/whole.txt")"

# By hand: three parts one after the other, and their exports merged.
jq -R -r --argjson parts 3 -f route.jq < "$work/events.jsonl" |
  awk -F '\t' -v work="$work" '{ print substr($0, length($1) + 2) > (work "/part-" $1 ".jsonl") }'
for part in 0 1 2; do
  "$wdq" replay --from "$work/pages" --export < "$work/part-$part.jsonl" | awk '/^# export/ { is_export = 1; next } is_export' > "$work/export-$part.txt"
done
sort -m -u "$work"/export-?.txt > "$work/merged.txt"
awk '/^# export/ { is_export = 1; next } is_export' "$work/whole.txt" | grep -v '^#' | cmp -s - "$work/merged.txt"
told "the exports of 3 parts, routed by jq and merged by sort" $?

# Patch streams of the three parts, which lean processes print byte for byte alike; followed and merged they give all triples.
alike=0
for part in 0 1 2; do
  "$wdq" patches --from "$work/pages" < "$work/part-$part.jsonl" > "$work/records-$part.txt"
  "$wdq" patches --lean --from "$work/pages" < "$work/part-$part.jsonl" > "$work/lean-$part.txt"
  cmp -s "$work/records-$part.txt" "$work/lean-$part.txt" || alike=1
  "$wdq" follow --export < "$work/lean-$part.txt" | grep -v '^#' > "$work/graph-$part.txt"
done
told "the records of 3 parts by --lean" $alike
sort -m -u "$work"/graph-?.txt | cmp -s - "$work/merged.txt"
told "the triples of these records, followed and merged" $?

/usr/bin/python3 -c 'import distributed' 2>/dev/null || { echo "passed over: the steps with Dask, python3-distributed is missing"; exit $failed; }

for parts in 1 3 8; do
  ./replay.py --parts $parts --program "$wdq" "$work/events.jsonl" -- $words > "$work/$parts.txt" && same "$work/$parts.txt" "$work/whole.txt"
  told "all that is printed in $parts part(s)" $?
done
cmp -s "$work/1.txt" "$work/whole.txt"
told "one part, the side output in its order too" $?

# A program whose process is killed once, after it has printed something wrong.
cat > "$work/killed.sh" <<'END'
#!/bin/sh
if read -r first && mkdir "$0.once" 2>/dev/null; then echo "# ask 1: 0 triples"; kill -9 $$; fi
{ [ -z "$first" ] || printf '%s\n' "$first"; cat; } | "$WDQ" "$@"
END
chmod +x "$work/killed.sh"
WDQ=$wdq ./replay.py --parts 3 --program "$work/killed.sh" "$work/events.jsonl" -- $words > "$work/killed.txt" && [ -d "$work/killed.sh.once" ] && same "$work/killed.txt" "$work/whole.txt"
told "a part whose process is killed is run again" $?

# The events of part 1 alone, and fewer bytes allowed than they have.
grep '"kind"' "$work/part-1.jsonl" > "$work/one.jsonl"
./replay.py --parts 3 --program "$wdq" "$work/one.jsonl" -- $words --max-bytes 500 > "$work/none.txt" 2> "$work/said.txt"
[ $? -eq 5 ] && [ ! -s "$work/none.txt" ] && grep -q 'part 1 of 3: wdq ended with status 5: wdq: input too long' "$work/said.txt"
told "a status other than 0 ends the whole, and the part is named" $?
exit $failed
