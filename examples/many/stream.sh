#!/bin/sh
# Tries a stream in parts: a Redis server on the loopback address has the events of each of four parts, and four processes take the parts
# (take_parts.py), each with `wdq patches`, a snapshot and a stream of records. In the middle one process is killed, and another takes its
# part over. At the end each part's records, followed, give a graph; and the graphs together are the triples of one replay.
#   ./stream.sh [SIZE]
# SIZE is how many items the stream has (2000). Needs jq, and Debian's packages redis-server and python3-redis.
case ${1-} in -h | --help) sed -n '2,6s/^# \{0,1\}//p' "$0"; exit 0 ;; esac
cd "$(dirname "$0")" || exit 2
wdq=$(readlink -f "${WDQ:-../../wdq}")
parts=4
size=${1:-2000}
LC_ALL=C
export LC_ALL

/usr/bin/python3 -B ./test_take_parts.py || exit 1
for needed in jq redis-server redis-cli; do
  command -v $needed > /dev/null || { echo "passed over: $needed is missing"; exit 0; }
done
/usr/bin/python3 -c 'import redis' 2> /dev/null || { echo "passed over: python3-redis is missing"; exit 0; }

work=$(mktemp -d) || exit 2
port=$(/usr/bin/python3 -c 'import socket; s = socket.socket(); s.bind(("127.0.0.1", 0)); print(s.getsockname()[1])')
redis-server --port "$port" --bind 127.0.0.1 --save '' --appendonly no --dir "$work" > "$work/redis.log" 2>&1 &
server=$!
# shellcheck disable=SC2046 # words are split
trap 'kill $server $(cat "$work"/process-* 2> /dev/null) 2> /dev/null; wait; rm -rf "$work"' EXIT
ask() { redis-cli -p "$port" "$@"; }

# Waits, for at most a minute, until a command succeeds.
await() {
  tries=600
  until "$@"; do
    tries=$((tries - 1))
    [ $tries -gt 0 ] || { echo "not as expected: $1 isn't so after a minute"; tail -n 5 "$work/redis.log"; exit 1; }
    sleep 0.1
  done
}
redis_answers() { ask ping > /dev/null 2>&1; }
await redis_answers

# The events, with a watermark at their end, since a snapshot closes nothing.
mkdir "$work/pages" "$work/snapshots"
awk -v size="$size" -v pages="$work/pages" -f stream.awk > "$work/events.jsonl" || exit 2
echo '{"watermark":"1970-02-01T00:00:00Z"}' >> "$work/events.jsonl"
"$wdq" replay --from "$work/pages" --export < "$work/events.jsonl" | sed -n '/^# export/,$p' | grep -v '^#' > "$work/whole.txt"
echo "one replay: $(wc -l < "$work/events.jsonl") lines, $(wc -l < "$work/whole.txt") triples"

# Each part's events into its stream: the first half now, the rest once a process was killed.
jq -R -r --argjson parts $parts -f route.jq < "$work/events.jsonl" > "$work/routed.txt" || exit 2
half=$(($(wc -l < "$work/routed.txt") / 2))
put() {
  /usr/bin/python3 -c 'import sys
for line in sys.stdin.buffer:
    part, text = line.rstrip(b"\n").split(b"\t", 1)
    words = [b"XADD", b"events:" + part, b"*", b"line", text]
    sys.stdout.buffer.write(b"*%d\r\n" % len(words) + b"".join(b"$%d\r\n%s\r\n" % (len(word), word) for word in words))' |
    ask --pipe > /dev/null
}
head -n $half "$work/routed.txt" | put

start() {
  ./take_parts.py --port "$port" --parts $parts --work "$work/snapshots" --pages "$work/pages" --program "$wdq" --batch 200 &
  echo $! > "$work/process-$1"
}
for process in 1 2 3 4; do start $process; done

# One process is killed once each part has a snapshot.
each_part_has_a_snapshot() { [ "$(find "$work/snapshots" -name '*-*' ! -name '*.*' | wc -l)" -ge $parts ]; }
part_2_has_an_owner() { owner=$(ask get owner:2) && owner=${owner%%-*} && [ -n "$owner" ]; }
await each_part_has_a_snapshot
await part_2_has_an_owner
kill -9 "$owner" || { echo "not as expected: no process has part 2"; exit 1; }
echo "killed: the process $owner, in the middle of part 2"
{ tail -n +$((half + 1)) "$work/routed.txt"; for part in 0 1 2 3; do printf '%s\t{"end":true}\n' $part; done; } | put
for process in 1 2 3 4; do
  [ "$(cat "$work/process-$process")" = "$owner" ] && continue
  wait "$(cat "$work/process-$process")" || { echo "not as expected: a process failed"; exit 1; }
done

# What each part's graph is, by its records; and all of them together.
for part in 0 1 2 3; do
  ask --raw xrange records:$part - + | grep -E '^(# patch|<)' > "$work/records-$part.txt"
  "$wdq" follow --export < "$work/records-$part.txt" | grep -v '^#' > "$work/graph-$part.txt"
  echo "part $part: $(grep -c '^# patch' "$work/records-$part.txt") records, $(wc -l < "$work/graph-$part.txt") triples"
done
if sort -m -u "$work"/graph-?.txt | cmp -s - "$work/whole.txt"; then
  echo "as expected: the graphs of $parts parts together, one of them taken over, are the triples of one replay"
else
  echo "not as expected: the graphs of $parts parts together are other triples"
  exit 1
fi
