#!/usr/bin/env bash
# Kills wdq at random moments while it saves, 200 times, and sees that the file of --save is whole each time: the old one or the new one.
# Every second run goes on from the file that it saves to. Then it kills as many runs that save behind each of a thousand watermarks, and
# sees that each file is whole, and that a run from it over the lines behind it ends as one run does. Last it sees that the file is there
# while wdq waits for its next line.
# usage: scripts/kill_save.sh [TIMES]; WDQ names the program, without it this repository's.
case ${1-} in -h | --help) sed -n '2,6s/^# \{0,1\}//p' "$0" && exit 0 ;; esac
top=$(cd "$(dirname "$(readlink -f "${BASH_SOURCE[0]}")")/.." && pwd) || exit 2
program=${WDQ:-$top/crates/wdq/out/wdq}
# In other locales the seconds of EPOCHREALTIME have a comma.
LC_ALL=C
export LC_ALL
times=${1:-200}
[ -x "$program" ] || { echo "$program isn't built" >&2 && exit 2; }
room=$(mktemp -d) || exit 2
trap 'rm -rf "$room"' EXIT
cd "$room" || exit 2

# Events of 2,000 redirects, so that a save has some thousand lines; then one event more.
mkdir pages
for ((n = 1; n <= 2000; n++)); do
  printf '{"entity":"Q%d","redirect":"Q%d"}' "$n" "$((n + 1))" >"pages/$n.json"
  printf '{"kind":"edit","entity":"Q%d","rev":%d,"time":"2024-05-01T10:00:05Z"}\n' "$n" "$n"
done >events.jsonl
echo '{"watermark":"2024-05-01T10:00:05Z"}' >>events.jsonl
echo '{"kind":"edit","entity":"Q1","rev":1,"time":"2024-05-01T10:00:09Z"}' >more.jsonl
cat events.jsonl more.jsonl >all.jsonl

# Makes the new file from nothing, or from the old one.
save_all() { exec "$program" replay --from pages --save "$1" <all.jsonl; }
save_more() { exec "$program" replay --from pages --resume "$1" --save "$1" <more.jsonl; }

# How long each takes, in microseconds. Both make the same file.
"$program" replay --from pages --save old <events.jsonl || exit 1
begun=${EPOCHREALTIME/./}
(save_all new) || exit 1
all=$((${EPOCHREALTIME/./} - begun))
cp old file
begun=${EPOCHREALTIME/./}
(save_more file) || exit 1
more=$((${EPOCHREALTIME/./} - begun))
cmp new file || exit 1

killed=0 kept=0 replaced=0 broken=0
for ((round = 0; round < times; round++)); do
  cp old file
  if ((round % 2)); then
    span=$more
    save_more file &
  else
    span=$all
    save_all file &
  fi
  child=$!
  # Most of the moments are in the last half of the run, where the file is written.
  pause=$((span / 2 + (RANDOM * 32768 + RANDOM) % (span * 6 / 10)))
  sleep "$((pause / 1000000)).$(printf '%06d' "$((pause % 1000000))")"
  kill -9 "$child" 2>/dev/null
  wait "$child" 2>/dev/null
  [ $? -ne 137 ] || killed=$((killed + 1))
  if cmp -s file old; then
    kept=$((kept + 1))
  elif cmp -s file new; then
    replaced=$((replaced + 1))
  else
    broken=$((broken + 1))
  fi
done
echo "$times saves, $killed killed: $kept left the old file, $replaced the new one, $broken neither"
[ "$broken" -eq 0 ] || exit 1

# An event and a watermark for each of 1,000 redirects, and what one run of them leaves.
for ((n = 1; n <= 1000; n++)); do
  time=$(date -u -d "@$((1714557600 + n))" +%Y-%m-%dT%H:%M:%SZ)
  printf '{"kind":"edit","entity":"Q%d","rev":%d,"time":"%s"}\n{"watermark":"%s"}\n' "$n" "$n" "$time" "$time"
done >log.jsonl
save_often() { exec "$program" patches --from pages --save often --every 1 <log.jsonl >records; }
begun=${EPOCHREALTIME/./}
(save_often) || exit 1
span=$((${EPOCHREALTIME/./} - begun))
mv often whole
mv records all_records

# How many lines of the log the state of a file has taken, if the file is whole.
lines_taken() {
  [ "$(tail -n 1 "$1")" = "{\"end\":$(($(wc -l <"$1") - 1))}" ] || return 1
  sed -n '1s/.*"lines":\([0-9]*\),.*/\1/p' "$1"
}

killed=0 none=0 broken=0
for ((round = 0; round < times; round++)); do
  rm -f often often.new
  save_often &
  child=$!
  pause=$(((RANDOM * 32768 + RANDOM) % (span * 11 / 10)))
  sleep "$((pause / 1000000)).$(printf '%06d' "$((pause % 1000000))")"
  kill -9 "$child" 2>/dev/null
  wait "$child" 2>/dev/null
  [ $? -ne 137 ] || killed=$((killed + 1))
  if [ ! -e often ]; then
    none=$((none + 1))
  elif ! taken=$(lines_taken often) || [ -z "$taken" ]; then
    broken=$((broken + 1))
  elif ! tail -n "+$((taken + 1))" log.jsonl | "$program" patches --from pages --resume often --save end >rest || ! cmp -s end whole; then
    broken=$((broken + 1))
  else
    # What was printed before the state, and then the rest, is what one run prints.
    tail -c "$(wc -c <rest)" all_records | cmp -s - rest || broken=$((broken + 1))
  fi
done
echo "$times runs with saves on the way, $killed killed: $none before the first save, $broken broken"
[ "$broken" -eq 0 ] || exit 1

# A pipe that stays open: the snapshot is there while wdq waits for its next line.
rm -f often
mkfifo pipe
"$program" patches --from pages --save often --every 1 <pipe >records &
child=$!
exec 3>pipe
head -n 10 log.jsonl >&3
for ((wait = 0; wait < 100; wait++)); do
  [ -e often ] && taken=$(lines_taken often) && [ "$taken" = 10 ] && break
  sleep 0.1
done
exec 3>&-
wait "$child" || exit 1
echo "an open pipe: $taken of 10 lines are in the snapshot"
[ "$taken" = 10 ]
