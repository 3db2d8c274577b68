#!/usr/bin/env bash
# Makes the page that runs wdq in a browser: one file, library/out/page/wdq.html, and beside it its WebAssembly module, wdq.wasm.
#
#   scripts/page.sh                  makes it, if there is none or what it is made of is newer
#   scripts/page.sh --test [FOLDER]  also tries it in Chromium, and compares it with the program that WDQ names, or crates/wdq/out/wdq; with a folder
#                                    it puts pictures of the page there
#
# scripts/library.sh builds the library first, if needed. Its module of LLVM is edited for WebAssembly (library/for_wasm.py), compiled and linked by the
# Rattle kit's tools. Needs the kit, `rt` on PATH, and Python. Ends with 70 if the page can't be made.
top=$(cd "$(dirname "$(readlink -f "${BASH_SOURCE[0]}")")/.." && pwd) || exit 70
module=$top/library/out/module/module.bc
made=$top/library/out/page

give_up() {
  printf 'page.sh: %s\n' "$1" >&2
  exit 70
}

# Compiles the module and what it needs besides, and links them. The memory begins with the stack, so a stack that is too large is a trap.
make_module() {
  local clang=$tools/clang target=(--target=wasm64-unknown-unknown -mcpu=lime1 -msimd128)
  "$clang" --target=x86_64-unknown-linux-gnu -x ir "$module" -O0 -Xclang -disable-llvm-passes -S -emit-llvm -o "$room/module.ll" &&
    "$top/library/for_wasm.py" "$room/module.ll" >"$room/wasm.ll" &&
    "$clang" "${target[@]}" -O3 -ffunction-sections -fdata-sections -Wno-override-module -c -x ir "$room/wasm.ll" -o "$room/module.o" &&
    "$clang" "${target[@]}" -O2 -ffreestanding -nostdinc -c "$top/library/runtime.c" -o "$room/runtime.o" &&
    "$tools/ld.lld" -flavor wasm -mwasm64 --no-entry --stack-first -z stack-size=4194304 --export=wdq_run --gc-sections --strip-debug \
      -o "$made/wdq.wasm" "$room/module.o" "$room/runtime.o"
}

make_page() {
  local version
  version=$(sed -n 's/^version=//p' "$top/wdq")
  "$top/library/build_page.py" "$made/wdq.wasm" "$version" >"$room/wdq.html" && mv "$room/wdq.html" "$made/"
}

# Whether the file is there, and none of those that it is made of is newer.
is_made() {
  local file=$1 source
  shift
  [ -s "$file" ] || return 1
  for source in "$@"; do
    [ ! "$source" -nt "$file" ] || return 1
  done
}

case ${1-} in -h | --help) sed -n '2,9s/^# \{0,1\}//p' "${BASH_SOURCE[0]}" && exit 0 ;; esac
"$top/scripts/library.sh" || exit
tools=$(dirname "$(rt doc)")/toolchain/bin
room=$(mktemp -d) || give_up 'there is no room for a temporary folder'
trap 'rm -rf "$room"' EXIT
mkdir -p "$made" || give_up "$made can't be written"
is_made "$made/wdq.wasm" "$module" "$top"/library/{for_wasm.py,runtime.c} || make_module || give_up 'the module could not be made'
make_page || give_up 'the page could not be made'
[ "${1-}" != --test ] || PYTHONDONTWRITEBYTECODE=1 "$top/library/try_page.py" "${WDQ:-$top/crates/wdq/out/wdq}" "${@:2}"
