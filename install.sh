#!/usr/bin/env bash
# Installs wdq, and takes it away again:
#   ./install.sh [PREFIX]            puts bin/wdq, libexec/wdq/wdq and share/man/man1/wdq.1 below PREFIX, /usr/local without one;
#                                    builds the program first if needed
#   ./install.sh --remove [PREFIX]   takes these three files away
case ${1-} in -h | --help) sed -n '2,5s/^# \{0,1\}//p' "$0" && exit 0 ;; esac
here=$(cd "$(dirname "$(readlink -f "${BASH_SOURCE[0]}")")" && pwd) || exit 2
files=(bin/wdq libexec/wdq/wdq share/man/man1/wdq.1)

refuse() {
  echo "install.sh: $1" >&2
  exit "$2"
}

install_files() {
  # The smallest drill builds the program if needed, and shows that it runs.
  "$here/wdq" drill --size 1 >/dev/null || refuse 'wdq was not built, or does not run' 1
  {
    install -D -m 755 "$here/wdq" "$prefix/bin/wdq" &&
      install -D -m 755 "$here/crates/wdq/out/wdq" "$prefix/libexec/wdq/wdq" &&
      install -D -m 644 "$here/docs/wdq.1" "$prefix/share/man/man1/wdq.1"
  } || refuse "$prefix can't be written; perhaps: sudo ./install.sh $prefix" 1
  echo "installed ${files[*]} below $prefix"
}

remove_files() {
  [ -e "$prefix/bin/wdq" ] || refuse "nothing is installed below $prefix" 1
  (cd "$prefix" && rm -f "${files[@]}") || refuse "the files below $prefix can't be removed; perhaps: sudo ./install.sh --remove $prefix" 1
  [ ! -d "$prefix/libexec/wdq" ] || rmdir "$prefix/libexec/wdq" || exit 1
  echo "removed ${files[*]} below $prefix"
}

action=install_files
[ "${1-}" != --remove ] || { action=remove_files && shift; }
prefix=${1-/usr/local}
[[ $# -le 1 && -n $prefix && $prefix != -* ]] || refuse 'the words are [--remove] [PREFIX]' 2
"$action"
