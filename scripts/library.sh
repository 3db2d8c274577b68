#!/usr/bin/env bash
# Builds the library for C from the proved crates, as a tree in library/out: lib/libwdq.so, include/wdq.h and lib/pkgconfig/wdq.pc.
#
#   scripts/library.sh                       builds it, if there is none or a source is newer
#   scripts/library.sh --into FOLDER [LIB]   puts the tree into a folder, as /usr/local, with LIB in place of lib
#   scripts/library.sh --test                tries it: the example and the tests in C, with AddressSanitizer, those in Python, and the packages
#
# A build takes what was proved before; without that it takes as long as a first ./wdq. It also keeps the module of LLVM, of which
# scripts/page.sh makes the page. Needs the Rattle kit, `rt` on PATH, and a C compiler, cc. The tests compare with the program that WDQ names,
# or crates/wdq/out/wdq. Ends with 70 if the library can't be built.
top=$(cd "$(dirname "$(readlink -f "${BASH_SOURCE[0]}")")/.." && pwd) || exit 70
made=$top/library/out
module=$made/module

say() {
  printf 'library.sh: %s\n' "$1" >&2
}

give_up() {
  say "$1"
  exit 70
}

# It builds as ./wdq does, but for `build_copy`.
# shellcheck disable=SC2034
here=$top
program=$module/libwdq_c.a
log=
# shellcheck source=scripts/build.sh
. "$top/scripts/build.sh"
read -ra uses < <(sed -n 's/^wdq_c staticlib://p' "$top/crates.txt")
order=()
for crate in "${uses[@]}"; do
  add_crate "$crate"
done
below=("${order[@]}")
order+=(wdq_c)

# Makes the kit's tools anew, with a clang that also keeps the module that it is given.
make_tools() {
  local tools=$1 kit=$2
  mkdir -p "$tools/bin" && ln -s "$kit/lib" "$tools/" && ln -s "$kit/bin/"* "$tools/bin/" && rm "$tools/bin/clang" || return 1
  printf '#!/bin/sh\ncp module.bc %q && exec %q "$@"\n' "$copy/module.bc" "$kit/bin/clang" >"$tools/bin/clang" && chmod +x "$tools/bin/clang"
}

# Proves the crate wdq_c over the proved crates of the copy, and compiles all of them into a static library.
compile_library() {
  local kit crate words=()
  kit=$(dirname "$(rt doc)")
  make_tools "$copy/tools" "$kit/toolchain" || return 1
  for crate in std "${uses[@]}"; do
    local library=$copy/crates/$crate/out/rlib/$crate.rlib
    [ -d "$library" ] || library=$kit/rlibs/$crate.rlib
    words+=(--extern "$crate=$library")
  done
  for crate in "${below[@]}"; do
    words+=(-L "dependency=$copy/crates/$crate/out/rlib")
  done
  words+=(-L "dependency=$kit/rlibs" --antt-project "$kit/rattle/logic/antt-project.json" --logic-built "$kit/logic_built")
  cp -R "$top/crates/wdq_c" "$copy/wdq_c" && cd "$copy/wdq_c" || return 1
  "$kit/bin/rattle" build --crate-name wdq_c src/lib.rt "${words[@]}" --jobs 2 --links wdq_c= --crate-type staticlib --backend llvm \
    --toolchain "$copy/tools" -o "$copy/libwdq_c.a" >>"$log" 2>&1 && echo 'rt: wdq_c proved' >>"$log"
}

# Proves and compiles the library in a copy of its crates. `build` calls it.
# shellcheck disable=SC2317
build_copy() {
  copy=$(TMPDIR=${TMPDIR:-/var/tmp} mktemp -d) || give_up 'there is no room for a temporary folder'
  (order=("${below[@]}") && copy_crates) && run_rt "$copy" ci || return 1
  end_progress
  say 'the crate wdq_c is proved and compiled, in one to three minutes'
  (compile_library) && mkdir -p "$module" || return 1
  # `is_built` looks for a file that may be executed.
  mv "$copy/module.bc" "$module/" && chmod +x "$copy/libwdq_c.a" && mv "$copy/libwdq_c.a" "$program" || return 1
  rm -rf "$copy"
}

# shellcheck disable=SC2317
build_here() {
  give_up 'the library needs a kit that keeps what it proved, rattle-kit-13f or later'
}

# Puts the header, the file of pkg-config and the shared library, which exports one name, below a prefix.
put_library() {
  local prefix=$1 lib=$2 version kit up
  version=$(sed -n 's/^version=//p' "$top/wdq")
  kit=$(dirname "$(rt doc)")
  up=$(realpath -ms --relative-to="/prefix/$lib/pkgconfig" /prefix)
  mkdir -p "$prefix/include" "$prefix/$lib/pkgconfig" && cp "$top/library/wdq.h" "$prefix/include/" || return 1
  sed "s,@VERSION@,$version,; s,@LIB@,$lib,; s,@UP@,$up," "$top/library/wdq.pc.in" >"$prefix/$lib/pkgconfig/wdq.pc" || return 1
  printf 'WDQ_0 { global: wdq_run; local: *; };\n' >"$module/exported" || return 1
  cc -shared -s -o "$prefix/$lib/libwdq.so.$version" -Wl,-soname,libwdq.so.0 -Wl,--version-script="$module/exported" -Wl,--gc-sections \
    -Wl,-z,defs,-z,relro,-z,now -Wl,--whole-archive "$program" -Wl,--no-whole-archive "$kit/c/liblibc_c.a" || return 1
  ln -sf "libwdq.so.$version" "$prefix/$lib/libwdq.so.0" && ln -sf libwdq.so.0 "$prefix/$lib/libwdq.so"
}

# Compiles a file of C, with these flags, into a program that finds the library where it was built.
compile_test() {
  local name=$1 source=$2
  shift 2
  cc -std=c11 -D_GNU_SOURCE -Wall -Wextra -Werror -Wno-unused-function -g -O1 "$@" "$top/library/$source.c" -o "$made/tests/$name" \
    -I"$made/include" -L"$made/lib" -Wl,-rpath,"$made/lib" -lwdq -lpthread
}

# Runs the example over the story, and compares it with the program.
test_example() {
  local asked=(replay --from pages --export --state --side)
  cd "$top/examples/story" && "$made/tests/example" 5=pages/5.json 7=pages/7.json -- "${asked[@]}" <events.jsonl >"$made/tests/printed" || return 1
  "${WDQ:-$top/crates/wdq/out/wdq}" "${asked[@]}" <events.jsonl | cmp - "$made/tests/printed"
}

test_c() {
  local checked=('-fsanitize=address,undefined')
  mkdir -p "$made/tests" || return 1
  if ! cc "${checked[@]}" -x c -o "$made/tests/none" - <<<'int main(void) { return 0; }' 2>/dev/null; then
    echo 'passed over: AddressSanitizer, since cc has none'
    checked=()
  fi
  compile_test example example "${checked[@]}" && (test_example) || return 1
  compile_test calls try_calls "${checked[@]}" && "$made/tests/calls" || return 1
  compile_test refusals try_calls -DFAILING_MEMORY && "$made/tests/refusals"
}

test_python() {
  if /usr/bin/python3 -c 'import pytest' 2>/dev/null; then
    PYTHONDONTWRITEBYTECODE=1 PYTHONPATH=$top/library/python /usr/bin/python3 -m pytest -q -p no:cacheprovider "$top/library/python/tests"
  else
    echo 'passed over: Python, since python3-pytest is missing'
  fi
}

# Makes the packages, and runs a drill by what they have in them.
test_packages() {
  local packages=$made/tests/packages root=$made/tests/root package
  if ! command -v dpkg-architecture >/dev/null; then
    echo 'passed over: the packages, since dpkg-dev is missing'
    return
  fi
  rm -rf "$packages" "$root"
  WDQ=${WDQ:-$top/crates/wdq/out/wdq} SOURCE_DATE_EPOCH=1714521600 "$top/scripts/package.sh" --library "$packages" >/dev/null || return 1
  for package in "$packages"/libwdq*.deb "$packages"/python3-wdq*.deb; do
    dpkg-deb -x "$package" "$root" || return 1
  done
  cd "$root" && LD_LIBRARY_PATH=$root/usr/lib/$(dpkg-architecture -qDEB_HOST_MULTIARCH) PYTHONPATH=$root/usr/lib/python3/dist-packages \
    PYTHONDONTWRITEBYTECODE=1 /usr/bin/python3 -c 'import wdq; assert wdq.__file__.startswith("'"$root"'") and wdq.drill(10).triples == 117'
}

case ${1-} in
  -h | --help) sed -n '2,11s/^# \{0,1\}//p' "${BASH_SOURCE[0]}" && exit 0 ;;
  --into) [ $# -ge 2 ] || give_up 'the words are --into FOLDER [LIB]' ;;
esac
command -v cc >/dev/null || give_up 'a C compiler, cc, is missing'
is_built || build
put_library "$made" lib || give_up 'the library could not be linked'
case ${1-} in
  --into) put_library "$2" "${3-lib}" || give_up "$2 can't be written" ;;
  --test) test_c && (test_packages) && test_python ;;
esac
