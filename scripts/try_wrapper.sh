#!/usr/bin/env bash
# Tries ./wdq, ./install.sh and .ci/run over stand-ins for the program and for the toolchain's rt, in files and in terminals, which `script`
# (util-linux) makes. It proves and builds nothing, and takes half a minute. Its last line counts what passed.
case ${1-} in -h | --help) sed -n '2,3s/^# \{0,1\}//p' "$0" && exit 0 ;; esac
top=$(cd "$(dirname "$(readlink -f "${BASH_SOURCE[0]}")")/.." && pwd) || exit 2
room=$(mktemp -d) || exit 2
trap 'rm -rf "$room"' EXIT
passed=0
failed=0
shown=
status=0

# --- The stand-ins ---

# A checkout with three crates below the program's, one that it doesn't stand on, and no program yet.
checkout=$room/checkout
mkdir -p "$room/bin" "$room/run/pages" "$checkout/scripts" "$checkout/docs" "$checkout/crates/"{lower,upper,wdq}/src "$checkout/crates/upper/"{out,must-fail}
cp "$top/wdq" "$top/install.sh" "$checkout/"
cp "$top/scripts/build.sh" "$checkout/scripts/"
cp "$top/docs/wdq.1" "$checkout/docs/"
echo 'Handles allowed: none.' >"$checkout/HANDLES"
printf '# layers\nlower:\nupper: lower thiserror\nwdq: upper\ncases: lower\n' >"$checkout/crates.txt"

# The program writes its words down and ends with STAND_IN_STATUS.
cat >"$room/program" <<'END'
#!/usr/bin/env bash
printf '%s\n' "$@" >"${ROOM:?}/words"
echo $$ >"$ROOM/process"
[ -z "${STAND_IN_SLEEP-}" ] || exec sleep "$STAND_IN_SLEEP"
case ${STAND_IN_STATUS:=0} in
  0) cat ;;
  1) echo 'wdq: words not understood' >&2 ;;
  *) echo "wdq: status $STAND_IN_STATUS" >&2 ;;
esac
exit "$STAND_IN_STATUS"
END

# rt says that it is of the kit RT_KIT, or one that keeps what `rt ci` proved. It writes down its words, its jobs, and what the copy holds
# that it is run in. As RT_FAILS says, a crate isn't proved (crate), the program doesn't run well (run), or the build sleeps.
cat >"$room/bin/rt" <<'END'
#!/usr/bin/env bash
if [ "$1" = version ]; then
  echo "${RT_KIT:-rattle-kit-13f} logic 0"
  exit
fi
if [ "$1" != ci ]; then
  echo "${PWD##*/}: $*" >>"${ROOM:?}/calls"
  [ "${RT_FAILS-}" != sleep ] || exec sleep 60
  if [ "$1" = all ] && [ "${RT_FAILS-}" = crate ]; then
    printf '== lower\n== upper\nlost in src\n== summary\nlower: ok\nupper: failed (1)\n1 of 2 crates ok\n'
    exit 1
  fi
  [ "$1" = all ] && printf '== lower\n== upper\n== summary\nlower: ok\nupper: ok\n2 of 2 crates ok\n'
  [ "$1" = run ] && mkdir -p out && cp "$ROOM/program" out/wdq
  exit 0
fi
printf '%s\n' "$* ${RT_JOBS-any}" "$(cut -d: -f1 crates.txt | tr '\n' ' ')$(ls -d .git HANDLES crates/*/*  | tr '\n' ' ')" >>"${ROOM:?}/calls"
pwd >"$ROOM/copy"
case ${RT_FAILS-} in
  crate)
    printf '== lower\nrt: lower proved\n== upper\nlost at %s/crates/upper/src\nrt: upper NOT PROVED\n' "$PWD"
    printf 'rt: wdq NOT PROVED: its library upper failed\nrt: FAILED: upper wdq\n1 passed, 2 failed\n'
    exit 1
    ;;
  run)
    printf 'rt: lower proved\nrt: upper proved\nrt: wdq proved\nrt: wdq: the program ended with status 1\n2 passed, 1 failed\n'
    exit 1
    ;;
  sleep)
    echo 'rt: lower proved'
    exec sleep 60
    ;;
esac
printf '== lower\nrt: lower proved\nrt: upper is kept: an earlier run proved it\n'
sleep 1.5
mkdir -p crates/wdq/out
cp "$ROOM/program" crates/wdq/out/wdq
printf '== wdq\nrt: wdq proved\n3 passed, 0 failed\n'
END
chmod +x "$room/program" "$room/bin/rt"
export ROOM=$room PATH="$room/bin:$PATH"
unset WDQ_JOBS
cd "$room/run" || exit 2
printf '{"kind":"edit"}\n' >events.jsonl
printf '{"ask":["?","?","?"]}\n' >asks.jsonl
printf '{"match":[["?who","?how","?what"]]}\n' >matches.jsonl
touch -- 'two words.jsonl'

put_program() {
  mkdir -p "$checkout/crates/wdq/out"
  cp "$room/program" "$checkout/crates/wdq/out/wdq"
}

drop_program() {
  rm -rf "$checkout/crates/wdq/out" "$checkout/build.log" "$room/calls"
}

# --- How a try is judged ---

# Judges whether what was found is what is wanted.
wants() {
  if [ "$2" = "$3" ]; then
    passed=$((passed + 1))
  else
    failed=$((failed + 1))
    printf 'FAILED: %s\n  wanted: %q\n  found:  %q\n' "$1" "$2" "$3"
  fi
}

# Judges whether what a terminal shows has a text.
shows() {
  if [[ $shown == *"$2"* ]]; then
    passed=$((passed + 1))
  else
    failed=$((failed + 1))
    printf 'FAILED: %s\n  wanted: .. %s ..\n  found:  %s\n' "$1" "$2" "$shown"
  fi
}

# Runs a line of shell in a terminal, and keeps what it shows and its status.
in_terminal() {
  shown=$(
    set -o pipefail
    script -qec "$1" /dev/null </dev/null | tr -d '\r'
  )
  status=$?
}

# Waits until a stand-in has written a file, and a moment more.
wait_for() {
  until [ -e "$1" ]; do
    sleep 0.1
  done
  sleep 0.5
}

# Runs a line of shell in a terminal, types Ctrl-C there once the file is written, and keeps what it shows, with the status at its end.
in_interrupted_terminal() {
  rm -f "$1"
  shown=$({
    wait_for "$1"
    printf '\003'
    sleep 2
  } | script -qec "trap : INT; $2; echo status \$?" /dev/null | tr -d '\r')
}

# --- Files and pipes: exactly what the program writes ---

put_program
for number in 0 1 2 3 4 5 6 7; do
  STAND_IN_STATUS=$number "$room/program" replay -x '' 'a b' <events.jsonl >wanted_out 2>wanted_err
  STAND_IN_STATUS=$number "$checkout/wdq" replay -x '' 'a b' <events.jsonl >out 2>err
  wants "status $number in files" "$number" "$?"
  wants "output of status $number in files" "$(cat wanted_out wanted_err)" "$(cat out err)"
  wants "words of status $number" $'replay\n-x\n\na b' "$(cat "$room/words")"
done
for words in '' --help --version 'replay --exprt' 'replay --from nowhere'; do
  # shellcheck disable=SC2086
  STAND_IN_STATUS=1 "$checkout/wdq" $words </dev/null >out 2>err
  wants "words '$words' in files" 'wdq: words not understood' "$(cat out err)"
done
in_terminal "'$checkout/wdq' replay < events.jsonl 2> err"
wants 'standard error in a file' '{"kind":"edit"}' "$shown$(cat err)"

# --- At a terminal: words that aren't understood ---

export STAND_IN_STATUS=1
while IFS='|' read -r words text; do
  in_terminal "'$checkout/wdq' $words < /dev/null"
  wants "status of '$words'" 1 "$status"
  shows "first line of '$words'" $'wdq: words not understood\nwdq: '"$text"
  shows "usage of '$words'" "wdq replay [--from DIR]"
done <<'END'
reply|'reply' is no command; did you mean replay?
REPLAY|'REPLAY' is no command; did you mean replay?
export|'export' is no command
''|'' is no command
'replay drill'|'replay drill' is no command
events.jsonl|'events.jsonl' is a file; did you mean replay < events.jsonl?
--export|the command comes first: replay patches follow split drill
folow --export|'folow' is no command; did you mean follow?
replay --exprt|'--exprt' is no option of replay; did you mean --export?
replay --exp|'--exp' is no option of replay; did you mean --export?
replay -export|'-export' is no option of replay; did you mean --export?
replay export|'export' is no option of replay; did you mean --export?
replay --form pages|'--form' is no option of replay; did you mean --from?
replay --max_bytes=5|'--max_bytes=5' is no option of replay; did you mean --max-bytes?
replay --limit 5|'--limit' is no option of replay
replay --|'--' is no option of replay
replay --size 5|--size is an option of drill
drill --size 5 --state|--state is an option of replay
drill --export|--export is an option of replay and follow
drill --max-bytes 5|--max-bytes is an option of replay, patches, follow and split
patch --from pages|'patch' is no command; did you mean patches?
patches --side|--side is an option of replay
patches --lean --lean|--lean is given twice
patches --lean=yes|--lean takes no value
patches --lea|'--lea' is no option of patches; did you mean --lean?
replay --lean|--lean is an option of patches
split --route people:Q5 --lean|--lean is an option of patches
follow --lean|--lean is an option of patches
drill --size 5 --lean|--lean is an option of patches
patches --max-byte 5|'--max-byte' is no option of patches; did you mean --max-bytes?
patches --max-bytes 4294967296|--max-bytes takes a number from 0 to 4294967295, in digits
patches --max-terms 0|--max-terms takes a number from 1 to 4294967295
patches --horizon 9223372036854775808|--horizon takes a number from 0 to 9223372036854775807
patches events.jsonl|'events.jsonl' is a file; did you mean < events.jsonl?
patches pages|'pages' is a folder; did you mean --from pages?
drill events.jsonl|'events.jsonl' is no option of drill
drill pages|'pages' is no option of drill
follow --from pages|--from is an option of replay, patches and split
follow --max-terms=5|--max-terms is an option of replay, patches and split
follow --size 5|--size is an option of drill
follow --exprt|'--exprt' is no option of follow; did you mean --export?
follow --sid|'--sid' is no option of follow
follow events.jsonl|'events.jsonl' is a file; did you mean < events.jsonl?
follow lost.txt|'lost.txt' is no option of follow; did you mean < lost.txt?
follow pages|'pages' is no option of follow
follow --export --export|--export is given twice
follow --export=yes|--export takes no value
follow --max-bytes 1099511627777|--max-bytes takes a number from 0 to 1099511627776
replay events.jsonl|'events.jsonl' is a file; did you mean < events.jsonl?
replay 'two words.jsonl'|'two words.jsonl' is a file; did you mean < two\ words.jsonl?
replay lost.jsonl|'lost.jsonl' is no option of replay; did you mean < lost.jsonl?
replay pages --export|'pages' is a folder; did you mean --from pages?
replay --from|--from lacks its value, a folder
replay --from --export|--from lacks its value, a folder
replay --from=|--from lacks its value, a folder
replay --from ''|--from lacks its value, a folder
replay --from -x|a value doesn't begin with '-': write './-x'
replay --save|--save lacks its value, a file
patches --save=|--save lacks its value, a file
replay --save -x|a value doesn't begin with '-': write './-x'
replay --sav a|'--sav' is no option of replay; did you mean --save?
replay --resume|--resume lacks its value, a file
patches --resume=|--resume lacks its value, a file
patches --resum a|'--resum' is no option of patches; did you mean --resume?
replay --resume a --resume b|--resume is given twice
follow --resume a|--resume is an option of replay, patches and split
follow --save a|--save is an option of replay, patches and split
replay --every 1|--every comes only together with --save
patches --save a --every 0|--every takes a number from 1 to 4294967295, in digits without a leading zero, and not '0'
follow --every 1|--every is an option of replay, patches and split
replay --max-terms|--max-terms lacks its value, a number from 1 to 4294967295
replay --max-terms 0|--max-terms takes a number from 1 to 4294967295, in digits without a leading zero, and not '0'
replay --max-terms 4294967296|--max-terms takes a number from 1 to 4294967295
replay --max-bytes 1099511627777|--max-bytes takes a number from 0 to 1099511627776
replay --max-bytes 007|--max-bytes takes a number from 0 to 1099511627776
replay --max-bytes -1|--max-bytes takes a number from 0 to 1099511627776
replay --max-bytes 1e6|--max-bytes takes a number from 0 to 1099511627776
replay --horizon 9223372036854775808|--horizon takes a number from 0 to 9223372036854775807
replay --export=yes|--export takes no value
replay --export --export|--export is given twice
replay --from a --from=b|--from is given twice
split|split lacks --route ROUTES
split --route|--route lacks its value, routes as 'people:Q5;places:Q515,Q532'
split --route main:Q5|--route takes routes as 'people:Q5;places:Q515,Q532', and not 'main:Q5'
split --route people:Q5,P31|--route takes routes as 'people:Q5;places:Q515,Q532', and not 'people:Q5,P31'
split --route 'people:Q5;people:Q6'|--route takes routes as 'people:Q5;places:Q515,Q532', and not 'people:Q5;people:Q6'
split --route people:Q5 --export|--export is an option of replay and follow
split --rout people:Q5|'--rout' is no option of split; did you mean --route?
replay --route people:Q5|--route is an option of split
drill|drill lacks --size N
drill 10|'10' is no option of drill; did you mean --size 10?
drill --size 0|--size takes a number from 1 to 200000
drill --size 200001|--size takes a number from 1 to 200000
END
for words in -h --help help; do
  in_terminal "'$checkout/wdq' $words < /dev/null"
  wants "status of '$words'" 0 "$status"
  shows "usage of '$words'" 'keeps a store of Wikidata'
done
in_terminal "'$checkout/wdq' --help < /dev/null | cat"
shows 'usage into a pipe' 'keeps a store of Wikidata'
for words in -V --version version; do
  in_terminal "'$checkout/wdq' $words < /dev/null"
  wants "status of '$words'" 0 "$status"
  shows "version of '$words'" "wdq $(sed -n 's/^version=//p' "$checkout/wdq")"
done
for words in '' 'replay --help'; do
  in_terminal "'$checkout/wdq' $words < /dev/null"
  wants "status of '$words'" 1 "$status"
  shows "usage of '$words'" $'wdq: words not understood\n\nwdq '
  shows "a manual of '$words'" "man $checkout/docs/wdq.1"
done
in_terminal "'$checkout/wdq' replay --max-bytes 1099511627776 --max-terms 4294967295 --horizon 0 --from x=y < /dev/null"
shows 'words without a fault' $'wdq: words not understood\n\nwdq '
in_terminal "'$checkout/wdq' patches --max-bytes 4294967295 --max-terms=4294967295 --lean --horizon 0 --from pages < /dev/null"
shows 'words of patches without a fault' $'wdq: words not understood\n\nwdq '
in_terminal "'$checkout/wdq' split --route 'people:Q5;places:Q515,Q532' --max-bytes 1099511627776 --from pages < /dev/null"
shows 'words of split without a fault' $'wdq: words not understood\n\nwdq '
in_terminal "'$checkout/wdq' follow --max-bytes=1099511627776 --export < /dev/null"
shows 'words of follow without a fault' $'wdq: words not understood\n\nwdq '
unset STAND_IN_STATUS

# --- At a terminal: warnings, a run that prints nothing, and statuses ---

in_terminal "'$checkout/wdq' replay --export --from page < events.jsonl"
shows 'no folder' $'wdq: there is no folder \'page\', so each revision will be missing\n{"kind"'
in_terminal "'$checkout/wdq' replay --export --from events.jsonl < events.jsonl"
shows 'a file as folder' $'wdq: \'events.jsonl\' is no folder, so each revision will be failed\n{"kind"'
in_terminal "'$checkout/wdq' patches --from page < events.jsonl"
shows 'no folder for patches' $'wdq: there is no folder \'page\', so each revision will be missing\n{"kind"'
in_terminal "'$checkout/wdq' replay --export --from=pages < events.jsonl"
wants 'a folder' '{"kind":"edit"}' "$shown"
in_terminal "'$checkout/wdq' replay --export"
shows 'the terminal as input' 'wdq: standard input is the terminal: type events and then Ctrl-D, or give a file by < EVENTS'
in_terminal "'$checkout/wdq' follow"
shows 'the terminal as records' 'wdq: standard input is the terminal: type records and then Ctrl-D, or give a file by < RECORDS'
in_terminal "'$checkout/wdq' follow < events.jsonl"
wants 'records in a file' '{"kind":"edit"}' "$shown"
in_terminal "STAND_IN_STATUS=0 '$checkout/wdq' drill --size 1 < /dev/null"
wants 'a drill reads no input' '' "$shown"
in_terminal "'$checkout/wdq' replay < events.jsonl"
wants 'neither section nor question' $'{"kind":"edit"}\nwdq: neither a section (--export, --state, --side) nor a question was asked for, so nothing is printed' "$shown"
in_terminal "'$checkout/wdq' replay --save kept < events.jsonl"
wants 'a snapshot alone' '{"kind":"edit"}' "$shown"
in_terminal "'$checkout/wdq' replay --export --resume lost < events.jsonl"
shows 'no file to go on from' $'wdq: there is no file \'lost\' to go on from\n{"kind"'
in_terminal "'$checkout/wdq' replay --export --resume asks.jsonl < events.jsonl"
wants 'a file to go on from' '{"kind":"edit"}' "$shown"
in_terminal "'$checkout/wdq' replay < asks.jsonl"
wants 'a question' '{"ask":["?","?","?"]}' "$shown"
in_terminal "'$checkout/wdq' replay < matches.jsonl"
wants 'a question of several patterns' '{"match":[["?who","?how","?what"]]}' "$shown"
in_terminal "cat asks.jsonl | '$checkout/wdq' replay"
shows 'a pipe' 'wdq: no section was asked for (--export, --state, --side), so only answers to questions are printed'
for number in 2 3 4 5 6 7 8; do
  in_terminal "STAND_IN_STATUS=$number '$checkout/wdq' replay < events.jsonl"
  wants "status $number at a terminal" "$number wdq: status $number" "$status $shown"
done
in_terminal "'$checkout/wdq' replay --export <&-"
wants 'a closed input' 'cat: -: Bad file descriptor' "${shown%%$'\n'*}"
in_terminal "STAND_IN_SLEEP=60 '$checkout/wdq' drill --size 1 < /dev/null & child=\$!; sleep 1; kill \$child; wait \$child; echo \$?; kill -0 \$(cat '$room/process') 2>/dev/null && echo alive"
wants 'a signal goes on to the program' 143 "${shown##*$'\n'}"
in_interrupted_terminal "$room/words" "STAND_IN_SLEEP=60 '$checkout/wdq' drill --size 1"
wants 'Ctrl-C ends the program' 130 "${shown##*status }"

# --- The build ---

drop_program
in_terminal "'$checkout/wdq' --help"
wants 'help needs no build' '0 no log' "$status $(ls "$checkout/build.log" 2>/dev/null || echo no log)"
shows 'help before the build' 'keeps a store of Wikidata'
"$checkout/wdq" replay <events.jsonl >out 2>err
wants 'a build' '0 {"kind":"edit"}' "$? $(cat out)"
wants 'what a build says in a file' $'wdq: building: 3 crates are proved\nwdq: 2 of 3 crates, 0 minutes' "$(sed 's/: 0 of/: 2 of/' err)"
wants 'how a build calls rt' $'ci any\nlower upper wdq .git HANDLES crates/lower/src crates/upper/src crates/wdq/src ' "$(cat "$room/calls")"
wants 'the copy is gone' no "$([ -e "$(cat "$room/copy")" ] && echo yes || echo no)"
"$checkout/wdq" replay <events.jsonl >out 2>err
wants 'nothing is built twice' '0 2' "$(wc -c <err) $(wc -l <"$room/calls")"
touch "$checkout/crates/lower/src/lib.rt"
in_terminal "'$checkout/wdq' replay --export < events.jsonl"
shows 'a newer source' $'wdq: building: 3 crates are proved\n'
shows 'the progress at a terminal' 'wdq: 3 of 3 crates, 0 minutes'
wants 'a build at a terminal' 0 "$status"
drop_program
WDQ_JOBS=3 "$checkout/wdq" replay <events.jsonl >out 2>err
wants 'three crates at a time' '0 ci 3 wdq: building: 3 crates are proved, 3 at a time' "$? $(head -n 1 "$room/calls") $(head -n 1 err)"
drop_program
WDQ_JOBS=none "$checkout/wdq" replay </dev/null >out 2>err
wants 'WDQ_JOBS is no number' "70 wdq: WDQ_JOBS is a number from 1 to 9999, and not 'none'" "$? $(cat err)"
RT_FAILS=crate "$checkout/wdq" replay </dev/null >out 2>err
wants 'a crate is not proved' "70 lost at $checkout/crates/upper/src"$'\nrt: upper NOT PROVED\nwdq: upper could not be built; the whole log is build.log' "$? $(grep -A 9 ^lost err)"
drop_program
RT_FAILS=run "$checkout/wdq" replay </dev/null >out 2>err
wants 'the program does not run well' $'70 2 passed, 1 failed\nwdq: the program could not be built; the whole log is build.log' "$? $(tail -n 2 err)"
drop_program
RT_FAILS='sleep' "$checkout/wdq" replay </dev/null >out 2>err &
wait_for "$room/calls"
kill $!
wait $!
wants 'a build is stopped' '143 wdq: the build was interrupted; the next one goes on where it stopped' "$? $(tail -n 1 err)"
wants 'the copy of a stopped build is gone' no "$([ -e "$(cat "$room/copy")" ] && echo yes || echo no)"
in_interrupted_terminal "$room/calls" "RT_FAILS=sleep '$checkout/wdq' replay"
wants 'Ctrl-C stops a build' 130 "${shown##*status }"
shows 'Ctrl-C in a build' 'the build was interrupted'
# A kit that keeps nothing of `rt ci`.
export RT_KIT=rattle-kit-13b
drop_program
WDQ_JOBS=2 "$checkout/wdq" replay <events.jsonl >out 2>err
wants 'a build in the checkout' '0 {"kind":"edit"}' "$? $(cat out)"
wants 'how a build in the checkout calls rt' $'upper: all check --jobs 2\nwdq: run -- replay' "$(cat "$room/calls")"
drop_program
RT_FAILS=crate "$checkout/wdq" replay </dev/null >out 2>err
wants 'a crate is not proved in the checkout' $'70 lost in src\nwdq: upper could not be built; the whole log is build.log' "$? $(tail -n 2 err)"
drop_program
RT_FAILS='sleep' "$checkout/wdq" replay </dev/null >out 2>err &
wait_for "$room/calls"
kill $!
wait $!
wants 'a build in the checkout is stopped' '143 wdq: the build was interrupted; the next one goes on where it stopped' "$? $(tail -n 1 err)"
unset RT_KIT
PATH=/usr/bin:/bin "$checkout/wdq" replay </dev/null >out 2>err
wants 'there is no rt' '70 1' "$? $(grep -c "command 'rt' is not on PATH" err)"

# --- The gate ---

mkdir "$checkout/.ci"
cp "$top/.ci/run" "$checkout/.ci/"
cat >"$checkout/scripts/check.sh" <<'END'
#!/bin/sh
echo '4 passed, 0 failed, 1 skipped'
exit "${CHECK_STATUS:-0}"
END
chmod +x "$checkout/scripts/check.sh"
"$checkout/.ci/run" >out 2>err
wants 'a gate' $'0 4 passed, 0 failed, 1 skipped\n3 passed, 0 failed' "$? $(tail -n 2 out)"
CHECK_STATUS=1 "$checkout/.ci/run" >out 2>err
wants 'a gate whose checks fail' '1 3 passed, 0 failed' "$? $(tail -n 1 out)"
RT_FAILS=crate "$checkout/.ci/run" >out 2>err
wants 'a gate whose proofs fail' '1 1 passed, 2 failed' "$? $(tail -n 1 out)"

# --- The installed program ---

drop_program
"$checkout/install.sh" "$room/prefix" >out 2>err
wants 'an installation' "0 installed bin/wdq libexec/wdq/wdq share/man/man1/wdq.1 below $room/prefix" "$? $(cat out)"
wants 'installed files' $'bin/wdq\nlibexec/wdq/wdq\nshare/man/man1/wdq.1' "$(cd "$room/prefix" && find . -type f | sed 's,^\./,,' | sort)"
rm -rf "$room/calls" && touch "$checkout/crates/lower/src/lib.rt"
"$room/prefix/bin/wdq" replay --export <events.jsonl >out 2>err
wants 'an installed program' '0 {"kind":"edit"}' "$? $(cat out err)"
ln -s "$room/prefix/bin/wdq" "$room/bin/wdq"
in_terminal "STAND_IN_STATUS=1 wdq replay events.jsonl < /dev/null"
shows 'an installed program through a link' "'events.jsonl' is a file; did you mean < events.jsonl?"
shows 'the manual of an installed program' 'The manual: man wdq'
wants 'an installed program builds nothing' no "$([ -e "$room/calls" ] && echo yes || echo no)"
rm "$room/prefix/libexec/wdq/wdq"
"$room/prefix/bin/wdq" replay </dev/null 2>err
wants 'a program that is gone' 70 "$?"
"$checkout/install.sh" --remove "$room/prefix" >out 2>err
wants 'a removal' "0 " "$? $(cd "$room/prefix" && find . -type f)"
"$checkout/install.sh" --remove "$room/prefix" >out 2>err
wants 'a removal of nothing' "1 install.sh: nothing is installed below $room/prefix" "$? $(cat out err)"
"$checkout/install.sh" --remove "$room/nowhere" >out 2>err
wants 'a removal where no folder is' "1 install.sh: nothing is installed below $room/nowhere" "$? $(cat out err)"
for words in --prefix '--remove --remove' 'a b' "''"; do
  eval "'$checkout/install.sh' $words" >out 2>err
  wants "install.sh $words" '2 install.sh: the words are [--remove] [PREFIX]' "$? $(cat err)"
done
for words in -h --help; do
  "$checkout/install.sh" "$words" >out 2>err
  wants "install.sh $words" '0 Installs wdq, and takes it away again:' "$? $(cat err; head -1 out)"
done

# --- What has to agree ---

# The tables of the crate words: the names of the commands, and each option as the script writes it.
words=$top/crates/arguments/specs/Table.antt
table=$(grep -oE '^[a-z]+_table =|entry \(codes "--[a-z-]+"\) (Flag|Text|\(Number [0-9]+ [0-9]+)' "$words" | awk '
  sub(/_table =$/, "") { command = $0; next }
  { gsub(/entry \(codes "|"\)|\(Number /, ""); sub(/ /, " " command " "); sub(/Flag$/, "nothing"); sub(/Text$/, /^--route/ ? "routes" : /^--from/ ? "folder" : "file"); print }')
wants 'the options of the script are those of the crate words' \
  "$(sort <<<"$table")" \
  "$(sed -n '/^options=(/,/^)/p' "$top/wdq" | sed -n "s/^  '\(.*\)'$/\1/p" | sort)"
wants 'the commands of the script are those of the crate words' \
  "$(sed -n 's/^name_of [A-Z][a-z]* = codes "\(.*\)"$/\1/p' "$words" | sort)" \
  "$(sed -n 's/^commands=(\(.*\))$/\1/p' "$top/wdq" | tr ' ' '\n' | sort)"
version=$(sed -n 's/^version=//p' "$top/wdq")
wants 'the version of the changes' "$version" "$(sed -n 's/^## \([0-9.]*\).*/\1/p' "$top/CHANGELOG.md" | head -n 1)"
wants 'the version of the man page' "wdq $version" "$(sed -n '1s/.*"\(wdq [0-9.]*\)".*/\1/p' "$top/docs/wdq.1")"

echo "$passed passed, $failed failed"
[ "$failed" -eq 0 ]
