# shellcheck shell=bash
# How ./wdq builds the program of a checkout. ./wdq reads this file, and sets `here` and `program` before.
# `is_built` tells whether the program is there and no source is newer; `build` makes it, and ends the script where that fails.
# There are two ways to build. A kit that keeps beside the toolchain what `rt ci` proved (rattle-kit-13f and later) runs `rt ci` over a copy
# of the crates that the program stands on, without their must-fail edits. It chooses how many proofs run side by side, by the processors and
# the memory that are free; what a build or a gate proved in one checkout, no other proves again. With an earlier kit that would prove all
# crates each time, so `rt all check` proves them in the checkout, over what stands in their folders out/.
: "${here:?}" "${program:?}"
log=$here/build.log
order=()

# Appends a crate of this repository to `order`, behind those that it stands on.
add_crate() {
  local line crate
  line=$(grep "^$1:" "$here/crates.txt") || return 0
  case " ${order[*]} " in *" $1 "*) return 0 ;; esac
  for crate in ${line#*:}; do
    add_crate "$crate"
  done
  order+=("$1")
}

# Whether the program is there and no source is newer.
is_built() {
  local crate folder folders=()
  [ -x "$program" ] || return 1
  for crate in "${order[@]}"; do
    for folder in src specs proofs; do
      [ -d "$here/crates/$crate/$folder" ] && folders+=("$here/crates/$crate/$folder")
    done
  done
  [ -z "$(find "$here/crates.txt" "${folders[@]}" -newer "$program" -print -quit)" ]
}

# Whether the kit keeps beside the toolchain what `rt ci` proved.
keeps_proofs() {
  [[ $(rt version 2>/dev/null) > rattle-kit-13e ]]
}

# Copies the crates of the program into the folder `copy`, as a repository of its own.
copy_crates() {
  local crate entry
  mkdir -p "$copy/.git" || return 1
  cp "$here/HANDLES" "$copy/" || return 1
  for crate in "${order[@]}"; do
    grep "^$crate:" "$here/crates.txt" >>"$copy/crates.txt" || return 1
    mkdir -p "$copy/crates/$crate" || return 1
    for entry in "$here/crates/$crate"/*; do
      case ${entry##*/} in out | must-fail) ;; *) cp -R "$entry" "$copy/crates/$crate/" || return 1 ;; esac
    done
  done
}

# Prints how much memory is available, in bytes: that of the machine, or less where a control group has a limit.
available_memory() {
  local group=/sys/fs/cgroup free limit used
  free=$(awk '/^MemAvailable:/ { print $2 }' /proc/meminfo)
  free=$((free * 1024))
  if { read -r limit <"$group/memory.max" && read -r used <"$group/memory.current"; } 2>/dev/null && [ "$limit" != max ]; then
    ((limit - used < free)) && free=$((limit - used))
  fi
  echo "$free"
}

# Prints how many crates `rt all check` proves side by side: WDQ_JOBS, or one a processor and at most one for each 3 GB of available memory.
count_jobs() {
  local jobs room
  jobs=$(nproc)
  room=$(($(available_memory) / 3000000000))
  ((room < jobs)) && jobs=$room
  echo "${WDQ_JOBS:-$((jobs < 1 ? 1 : jobs))}"
}

# Says how far the build is by the log: at a terminal on one line that is written over, elsewhere on a line each minute.
tell_progress() {
  local minutes=$((SECONDS / 60)) unit=minutes finished text
  [ "$minutes" != 1 ] || unit=minute
  finished=$(awk '/^== [a-z0-9_]+$/ && $2 != "summary" { seen[$2] } /^rt: [a-z0-9_]+ (proved$|is kept: )/ { seen[$2] } END { for (name in seen) n++; print n + 0 }' "$log")
  text="wdq: $finished of ${#order[@]} crates, $minutes $unit"
  if [ -t 2 ]; then
    printf '\r%s' "$text" >&2
  elif [ "$minutes" != "$told" ]; then
    echo "$text" >&2
  fi
  told=$minutes
}

# Ends the line of the progress at a terminal.
end_progress() {
  [ ! -t 2 ] || echo >&2
}

# Stops a build that a signal interrupts.
# shellcheck disable=SC2317
interrupt_build() {
  # The message below may go into a closed pipe too.
  trap '' PIPE
  kill "$builder" 2>/dev/null
  wait "$builder" 2>/dev/null
  end_progress
  say 'the build was interrupted; the next one goes on where it stopped'
  [ -z "$copy" ] || rm -rf "$copy"
  trap - "$1"
  kill -s "$1" $$
}

# Runs rt with these words in a folder, with its output in the log, and says how far the build is.
run_rt() {
  (cd "$1" && shift && exec rt "$@") </dev/null >>"$log" 2>&1 8>&- &
  builder=$!
  trap 'interrupt_build INT' INT
  trap 'interrupt_build TERM' TERM
  trap 'interrupt_build HUP' HUP
  trap 'interrupt_build PIPE' PIPE
  while kill -0 "$builder" 2>/dev/null; do
    tell_progress
    sleep 1
  done
  trap - INT TERM HUP PIPE
  wait "$builder"
}

# Proves and links the program in a copy of its crates.
build_copy() {
  copy=$(TMPDIR=${TMPDIR:-/var/tmp} mktemp -d) || give_up 'there is no room for a temporary folder'
  [ -z "${WDQ_JOBS-}" ] || export RT_JOBS=$WDQ_JOBS
  copy_crates && run_rt "$copy" ci && mkdir -p "${program%/*}" || return 1
  # It takes its name once it is whole: the copy may be on another disk.
  if ! mv "$copy/crates/wdq/out/wdq" "$program.new" || ! mv "$program.new" "$program"; then
    rm -f "$program.new"
    return 1
  fi
  rm -rf "$copy"
}

# Proves and links the program in the checkout. `rt run` proves and links the program's own crate at once, so `rt all check` proves those
# below it.
build_here() {
  run_rt "$here/crates/${order[-2]}" all check --jobs "$(count_jobs)" && run_rt "$here/crates/wdq" run -- replay && echo '== wdq' >>"$log"
}

# Ends after a build that failed, with the end of what rt said of the first crate that failed.
give_up_build() {
  local crate
  if [ -n "$copy" ]; then
    # In the same file, which another build may wait for.
    local text
    text=$(sed "s,$copy,$here,g" "$log") && printf '%s\n' "$text" >"$log"
    rm -rf "$copy"
  fi
  end_progress
  crate=$(sed -nE 's/^rt: ([a-z0-9_]+) NOT PROVED$/\1/p; s/^([a-z0-9_]+): failed \(.*\)$/\1/p' "$log" | head -n 1)
  if [ -n "$crate" ]; then
    sed -nE "/^== $crate\$/,/^(rt: $crate NOT PROVED|== .*)\$/p" "$log" | grep -v '^== ' | tail -n 15 >&2
  else
    tail -n 15 "$log" >&2
  fi
  give_up "${crate:-the program} could not be built; the whole log is build.log"
}

build() {
  local begun copy='' builder told=none jobs=
  command -v rt >/dev/null 2>&1 || give_up "the Rattle toolchain's command 'rt' is not on PATH; README.md names the kit"
  if [ -n "${WDQ_JOBS-}" ]; then
    [[ $WDQ_JOBS =~ ^[1-9][0-9]{0,3}$ ]] || give_up "WDQ_JOBS is a number from 1 to 9999, and not '$WDQ_JOBS'"
    jobs=", $WDQ_JOBS at a time"
  fi
  # One build at a time; who waited takes what the other one built.
  if ! exec 8>>"$log"; then
    give_up "$log can't be written"
  fi
  if command -v flock >/dev/null && ! flock -n 8; then
    say 'another build is under way; this one waits for it'
    flock 8
  fi
  if is_built; then
    exec 8>&-
    return
  fi
  begun=$(date +%s.%N)
  : >"$log"
  say "building: ${#order[@]} crates are proved$jobs"
  SECONDS=0
  if keeps_proofs; then
    build_copy || give_up_build
  else
    build_here || give_up_build
  fi
  tell_progress
  end_progress
  # What was edited while it was built is newer than the program.
  touch -d "@$begun" "$program"
  exec 8>&-
}

add_crate wdq
