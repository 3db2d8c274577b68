#!/usr/bin/env bash
# Makes packages of the built program and of wdq-mirror: a Debian package, and a tar archive with a checksum.
#
#   scripts/package.sh [FOLDER]             puts them into FOLDER, or into out/packages; builds the program first if needed
#   scripts/package.sh --library [FOLDER]   also makes those of the library: libwdq0, libwdq-dev and python3-wdq; builds it first if needed
#
# All times in them are those of the last commit, so two runs over one program give the same bytes. Needs dpkg-dev and python3.
top=$(cd "$(dirname "$(readlink -f "${BASH_SOURCE[0]}")")/.." && pwd) || exit 2
case ${1-} in -h | --help) sed -n '2,7s/^# \{0,1\}//p' "${BASH_SOURCE[0]}" && exit 0 ;; esac
maintainer='Tombolapine maintainers <maintainers@users.noreply.tombolapine.example>'

refuse() {
  echo "package.sh: $1" >&2
  exit "$2"
}

# Compresses a file in place; the same bytes give the same file.
pack() {
  gzip -9n "$@"
}

# Prints what bash completes behind wdq, from the words of the wrapper.
complete_wdq() {
  local commands options command
  eval "$(sed -n '/^commands=/p; /^options=(/,/^)/p' "$top/wdq")"
  echo '# What bash completes behind wdq.'
  echo "_wdq() {"
  echo "  local words='${commands[*]} --help --version'"
  echo "  case \${COMP_WORDS[1]} in"
  for command in "${commands[@]}"; do
    echo -n "    $command) [ \"\$COMP_CWORD\" -eq 1 ] || words='"
    printf '%s\n' "${options[@]}" | awk -v command="$command" '$2 == command { printf "%s%s", separator, $1; separator = " " }'
    echo "' ;;"
  done
  printf '%s\n' '  esac' "  mapfile -t COMPREPLY < <(compgen -W \"\$words\" -- \"\${COMP_WORDS[COMP_CWORD]}\")" '}'
  echo 'complete -o bashdefault -o default -F _wdq wdq'
}

# Puts the programs, their manuals and what bash completes below a prefix.
put_programs() {
  local prefix=$1 module completions=$1/share/bash-completion/completions
  install -D -m 755 "$top/wdq" "$prefix/bin/wdq"
  install -D -m 755 "$program" "$prefix/libexec/wdq/wdq"
  strip --strip-unneeded "$prefix/libexec/wdq/wdq"
  install -D -m 755 "$top/mirror/wdq-mirror" "$prefix/share/wdq-mirror/wdq-mirror"
  for module in $(cd "$top/mirror" && find wdq_mirror -name '*.py'); do
    install -D -m 644 "$top/mirror/$module" "$prefix/share/wdq-mirror/$module"
  done
  ln -s ../share/wdq-mirror/wdq-mirror "$prefix/bin/wdq-mirror"
  install -D -m 644 "$top/docs/wdq.1" "$prefix/share/man/man1/wdq.1"
  "$top/mirror/manual.py" man "$day" >"$prefix/share/man/man1/wdq-mirror.1"
  pack "$prefix"/share/man/man1/*.1
  mkdir -p "$completions"
  complete_wdq >"$completions/wdq"
  "$top/mirror/manual.py" bash >"$completions/wdq-mirror"
}

# Puts the documents, the path for readers in Virtuoso, and the rules and the dashboard of Prometheus and Grafana below a folder.
put_documents() {
  local folder=$1
  install -d "$folder/watching" "$folder/pages"
  install -m 644 "$top/README.md" "$top/mirror/virtuoso-read.sql" "$folder/"
  install -m 644 "$top"/docs/*.md "$folder/pages/"
  install -m 644 "$top"/mirror/watching/* "$folder/watching/"
}

# Prints the licences as Debian wants them.
copyright() {
  printf '%s\n' 'Format: https://www.debian.org/doc/packaging-manuals/copyright-format/1.0/' 'Upstream-Name: wdq' '' 'Files: *' \
    "$(sed -n 's/^Copyright (c) /Copyright: /p' "$top/LICENSE-MIT")" 'License: Apache-2.0 or Expat' '' 'License: Apache-2.0' \
    " On Debian systems the whole text is in /usr/share/common-licenses/Apache-2.0." '' 'License: Expat'
  sed '1,/^Copyright/d; 1,/^$/{/^$/d}; s/^$/./; s/^/ /' "$top/LICENSE-MIT" | sed '1{/^ \.$/d}'
}

# Prints the packages of the libraries that a program or a library needs.
libraries() {
  mkdir -p "$room/libraries/debian"
  printf '%s\n' 'Source: wdq' '' 'Package: wdq' 'Architecture: any' >"$room/libraries/debian/control"
  (cd "$room/libraries" && dpkg-shlibdeps -O "$1" 2>/dev/null | sed 's/^shlibs:Depends=//')
}

# Puts the licences and the changes of a version below a package's documents.
put_changes() {
  local doc=$1 package=$2
  mkdir -p "$doc"
  copyright >"$doc/copyright"
  printf '%s\n' "$package ($version) unstable; urgency=medium" '' "  * Version $version; see pages/ and changes.gz." '' \
    " -- $maintainer  $(date -uRd "@$SOURCE_DATE_EPOCH")" | pack >"$doc/changelog.gz"
  pack <"$top/CHANGELOG.md" >"$doc/changes.gz"
}

# Makes the tree of the Debian package.
put_debian() {
  local tree=$1 doc=$1/usr/share/doc/wdq
  put_programs "$tree/usr"
  put_documents "$doc"
  put_changes "$doc" wdq
  install -D -m 644 "$top/mirror/systemd/wdq-mirror.service" "$tree/lib/systemd/system/wdq-mirror.service"
  install -d "$tree/DEBIAN"
  install -m 755 "$top"/mirror/debian/* "$tree/DEBIAN/"
  (cd "$tree" && find usr lib -type f -print0 | sort -z | xargs -0 md5sum) >"$tree/DEBIAN/md5sums"
  printf '%s\n' 'Package: wdq' "Version: $version" "Architecture: $(dpkg --print-architecture)" "Maintainer: $maintainer" \
    "Installed-Size: $(du -k --apparent-size -s "$tree" | cut -f 1)" "Depends: $(libraries "$program"), adduser, python3 (>= 3.11), python3-aiohttp" \
    'Recommends: python3-rdflib' 'Suggests: prometheus, virtuoso-opensource' 'Section: database' 'Priority: optional' \
    'Description: mirror of the triples of Wikidata' \
    ' wdq keeps a store of Wikidata'"'"'s triples in step with edits: it maps the' ' edited pages to RDF, and prints each change of the triples as a record.' \
    ' wdq-mirror loads a dump, follows the stream of changes, and keeps a' ' SPARQL store in step by these records.' >"$tree/DEBIAN/control"
}

# Makes a Debian package of the tree `library-NAME` in the room. The other words are more lines of its control file.
make_library_package() {
  local name=$1 architecture=$2 section=$3 about=$4 tree=$room/library-$1
  shift 4
  put_changes "$tree/usr/share/doc/$name" "$name"
  install -d "$tree/DEBIAN"
  (cd "$tree" && find usr -type f -print0 | sort -z | xargs -0 md5sum) >"$tree/DEBIAN/md5sums"
  printf '%s\n' "Package: $name" 'Source: wdq' "Version: $version" "Architecture: $architecture" "Maintainer: $maintainer" \
    "Installed-Size: $(du -k --apparent-size -s "$tree" | cut -f 1)" "Section: $section" 'Priority: optional' "$@" \
    "Description: replays of edits of Wikidata over pages in memory$about" \
    ' The library has one call: it replays events over pages that the caller lends,' \
    ' and gives the triples, the states and the side output that follow.' >"$tree/DEBIAN/control"
  find "$tree" -exec touch -h -d "@$SOURCE_DATE_EPOCH" {} +
  dpkg-deb --root-owner-group -Zxz --build "$tree" "$room/out/${name}_${version}_$architecture.deb" >/dev/null
}

# Makes the packages of the library: of the library itself, of what a program in C is compiled with, and of the package of Python.
make_library_packages() {
  local machine lib run=$room/library-libwdq0 dev=$room/library-libwdq-dev python=$room/library-python3-wdq
  machine=$(dpkg --print-architecture)
  lib=lib/$(dpkg-architecture -qDEB_HOST_MULTIARCH)
  umask 022
  "$top/scripts/library.sh" --into "$dev/usr" "$lib"
  mkdir -p "$run/usr/$lib" "$run/DEBIAN" "$dev/usr/share/doc/libwdq-dev/examples" "$python/usr/lib/python3/dist-packages/wdq"
  mv "$dev/usr/$lib"/libwdq.so.* "$run/usr/$lib/"
  chmod 644 "$run/usr/$lib/libwdq.so.$version"
  echo 'libwdq 0 libwdq0' >"$run/DEBIAN/shlibs"
  echo 'activate-noawait ldconfig' >"$run/DEBIAN/triggers"
  cp "$top/library/example.c" "$dev/usr/share/doc/libwdq-dev/examples/"
  cp "$top/docs/LIBRARY.md" "$dev/usr/share/doc/libwdq-dev/"
  cp "$top"/library/python/wdq/{*.py,py.typed} "$python/usr/lib/python3/dist-packages/wdq/"
  make_library_package libwdq0 "$machine" libs '' "Depends: $(libraries "$run/usr/$lib/libwdq.so.$version")"
  make_library_package libwdq-dev "$machine" libdevel ' (for C)' "Depends: libwdq0 (= $version)"
  make_library_package python3-wdq all python ' (for Python)' "Depends: python3 (>= 3.11), libwdq0 (>= $version)" 'Recommends: python3-rdflib'
}

# Makes the packages in the room.
make_packages() {
  local tree=$room/debian name
  name=wdq-$version-linux-$(uname -m)
  umask 022
  put_debian "$tree"
  put_programs "$room/$name"
  put_documents "$room/$name/share/doc/wdq"
  install -m 644 "$top"/LICENSE-* "$room/$name/"
  install -D -m 644 "$top/mirror/systemd/wdq-mirror.service" "$room/$name/share/wdq-mirror/wdq-mirror.service"
  find "$tree" "$room/$name" -exec touch -h -d "@$SOURCE_DATE_EPOCH" {} +
  dpkg-deb --root-owner-group -Zxz --build "$tree" "$room/out/wdq_${version}_$(dpkg --print-architecture).deb" >/dev/null
  [ -z "$library" ] || make_library_packages
  tar -C "$room" --sort=name --owner=0 --group=0 --numeric-owner --mtime="@$SOURCE_DATE_EPOCH" --format=gnu -c "$name" | pack >"$room/out/$name.tar.gz"
  (cd "$room/out" && sha256sum -- * >"$room/SHA256SUMS" && mv "$room/SHA256SUMS" .)
}

library=
if [[ ${1-} == --library ]]; then
  library=yes
  shift
fi
[[ $# -le 1 && ${1-} != -* ]] || refuse 'the words are [--library] [FOLDER]' 2
command -v dpkg-deb >/dev/null || refuse 'dpkg-deb is missing: apt-get install dpkg-dev' 2
target=${1-$top/out/packages}
program=$(readlink -m "${WDQ-$top/crates/wdq/out/wdq}")
# The smallest drill builds the program if needed, and shows that it runs.
[ -n "${WDQ-}" ] || "$top/wdq" drill --size 1 >/dev/null || refuse 'wdq was not built, or does not run' 1
version=$(sed -n 's/^version=//p' "$top/wdq")
SOURCE_DATE_EPOCH=${SOURCE_DATE_EPOCH-$(git -C "$top" log -1 --format=%ct)} || refuse 'no commit says when this was made; set SOURCE_DATE_EPOCH' 1
export SOURCE_DATE_EPOCH
day=$(date -u -d "@$SOURCE_DATE_EPOCH" +%F)
room=$(mktemp -d) || refuse 'there is no room for a temporary folder' 1
trap 'rm -rf "$room"' EXIT
mkdir "$room/out"
# (Behind `||` or in an `if`, set -e would do nothing.)
(
  set -e
  make_packages
)
status=$?
[ "$status" -eq 0 ] || refuse 'the packages could not be made' 1
{ mkdir -p "$target" && cp "$room"/out/* "$target/"; } || refuse "$target can't be written" 1
cat "$target/SHA256SUMS"
