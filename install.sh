#!/bin/sh
# Puts the warning desk where it belongs below a folder: the front `warn`, the built programs, their man pages, the
# completions for bash and zsh, and the documents and samples; and, where it was built, the library for C, Rust and
# Python, with its header, its Python module and its Rust crate.
#
# usage: sh install.sh PREFIX        for example /usr/local (as root), or "$HOME/.local"
#
# The programs are taken from crates/NAME/out/NAME, where `rt run` leaves them, or from the folder BUILT where the
# environment names one; the library from bindings/out, where `sh bindings/build` leaves it, or from the folder LIBRARY.
# Nothing is built here, and no service, user or journal is made: docs/OPERATING.md and docs/LIBRARY.md say how.
# What was put there stands in PREFIX/share/warning_desk/FILES. To take it away again:
#   cd PREFIX && xargs -d '\n' rm -f < share/warning_desk/FILES
set -eu
top=$(cd "$(dirname "$0")" && pwd)
if [ $# != 1 ] || [ -z "$1" ]; then
  echo 'usage: sh install.sh PREFIX' >&2
  exit 2
fi
case $1 in -*) echo "install.sh: PREFIX is a folder, not $1" >&2; exit 2 ;; esac
programs='warn_main warn_archive watch_notice warn_follow warn_stats'

# The words on which a program is run once, so that `rt run` proves and builds it.
words_of() {
  case $1 in
    warn_main) echo '- drill 7 1' ;;
    warn_archive|warn_stats) echo 'KLWX O 180103T1900Z < /dev/null' ;;
    watch_notice) echo 'KLWX Eastern < /dev/null' ;;
    warn_follow) echo 'KLWX O 180103T1900Z 1 1    (it ends with status 15, since nobody listens at port 1)' ;;
  esac
}

built() {
  if [ -n "${BUILT-}" ]; then echo "$BUILT/$1"; else echo "$top/crates/$1/out/$1"; fi
}

lacks=0
for name in $programs; do
  if [ ! -x "$(built "$name")" ] || [ ! -f "$(built "$name")" ]; then
    echo "install.sh: $(built "$name") is not there: cd $top/crates/$name && rt run -- $(words_of "$name")" >&2
    lacks=1
  fi
done
[ "$lacks" = 0 ] || exit 1

mkdir -p "$1"
prefix=$(cd "$1" && pwd)
work=$(mktemp -d)
trap 'rm -rf "$work"' EXIT
stage=$work/stage
files=share/warning_desk/FILES

# Everything is laid out apart first.
put() { install -D -m "$1" "$2" "$stage/$3"; }
put 755 "$top/warn" bin/warn
for name in $programs; do
  put 755 "$(built "$name")" "bin/$name"
  put 644 "$top/completions/warn.bash" "share/bash-completion/completions/$name"
done
put 644 "$top/completions/warn.bash" share/bash-completion/completions/warn
put 644 "$top/completions/_warn" share/zsh/site-functions/_warn
for sheet in "$top"/man/*.1; do put 644 "$sheet" "share/man/man1/${sheet##*/}"; done
for name in README.md CHANGELOG.md; do put 644 "$top/$name" "share/warning_desk/$name"; done
for folder in docs samples page; do
  [ -d "$top/$folder" ] || continue
  (cd "$top" && find "$folder" -type f ! -path '*/__pycache__/*' ! -path 'samples/check*' ! -path 'page/test/*') > "$work/list"
  while read -r file; do
    mode=644
    [ ! -x "$top/$file" ] || mode=755
    put "$mode" "$top/$file" "share/warning_desk/$file"
  done < "$work/list"
done
# The library, from which docs/LIBRARY.md says how C, Rust and Python call.
library=${LIBRARY-$top/bindings/out}
has_library=''
if [ -f "$library/libwarn_codes.a" ] && [ -f "$library/libwarn_codes.so" ]; then
  has_library=1
  put 644 "$top/bindings/c/warn_codes.h" include/warn_codes.h
  put 644 "$library/libwarn_codes.a" lib/libwarn_codes.a
  put 755 "$library/libwarn_codes.so" lib/libwarn_codes.so
  for file in "$top"/bindings/python/warn_codes/*.py "$top"/bindings/python/warn_codes/py.typed; do
    put 644 "$file" "lib/python/warn_codes/${file##*/}"
  done
  for file in Cargo.toml Cargo.lock build.rs; do
    put 644 "$top/bindings/rust/$file" "share/warn_codes/rust/$file"
  done
  for file in "$top"/bindings/rust/src/*.rs; do
    put 644 "$file" "share/warn_codes/rust/src/${file##*/}"
  done
elif [ -n "${LIBRARY-}" ]; then
  echo "install.sh: $library has no libwarn_codes.a and libwarn_codes.so: sh bindings/build makes them" >&2
  exit 1
fi
{
  echo "warning desk $(sed -n 's/^## \([^ ]*\).*/\1/p' "$top/CHANGELOG.md" | head -n 1)"
  commit=$(git -C "$top" rev-parse HEAD 2> /dev/null) || commit=unknown
  [ -z "$(git -C "$top" status --porcelain --untracked-files=no 2> /dev/null)" ] || commit="$commit, with changes"
  echo "commit $commit"
  echo "kit $(rt version 2> /dev/null || echo unknown)"
} > "$stage/share/warning_desk/VERSION"
chmod 644 "$stage/share/warning_desk/VERSION"
put 644 /dev/null "$files"
(cd "$stage" && find . -type f | sed 's|^\./||' | LC_ALL=C sort) > "$work/names"
cat "$work/names" > "$stage/$files"

# What an earlier install put there and this one does not have goes; then each file takes its place whole, so that a
# program that runs is replaced and not written over.
if [ -f "$prefix/$files" ]; then
  LC_ALL=C comm -23 "$prefix/$files" "$stage/$files" | while read -r file; do rm -f "${prefix:?}/$file"; done
fi
while read -r file; do
  mkdir -p "$prefix/$(dirname "$file")"
  cp --preserve=mode "$stage/$file" "$prefix/$file.new"
  mv -f "$prefix/$file.new" "$prefix/$file"
done < "$stage/$files"
echo "installed below $prefix: try $prefix/bin/warn help"
case :$PATH: in *":$prefix/bin:"*) ;; *) echo "$prefix/bin is not on the path" ;; esac
if [ -n "$has_library" ]; then
  echo "the library: -I$prefix/include and $prefix/lib/libwarn_codes.a for C, PYTHONPATH=$prefix/lib/python for Python,"
  echo "warn_codes = { path = \"$prefix/share/warn_codes/rust\" } below [dependencies] for Rust"
else
  echo "the library for C, Rust and Python is not built, and left out: docs/LIBRARY.md says how it is made"
fi
