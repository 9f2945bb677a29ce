# What the scripts here share; each reads it first, with its own words. They take the program's path, work in a new folder, and end with the line
# `N passed, M failed`. With PKG_TEST_FILES a large package has so many files, for a program that is slow.
set -u
export LC_ALL=C
umask 022
unset PKG_IMAGE PKG_REPOSITORY PKG_UNPROVED DESTDIR
top=$(cd "$(dirname "${BASH_SOURCE[0]}")/.." && pwd) || exit 2
[ $# -ge 1 ] && [ -x "$1" ] && [ ! -d "$1" ] || { echo "usage: $0 PROGRAM" >&2; exit 2; }
program=$(cd "$(dirname "$1")" && pwd)/$(basename "$1")
room=$(mktemp -d) || exit 2
# Others look into it, where a script goes on as somebody else.
chmod 711 "$room"
started=()
trap 'clean_up' EXIT
clean_up() {
  local it
  for it in "${started[@]}"; do kill -9 "$it" 2>/dev/null; done
  rm -rf "$room"
}

passed=0 failed=0
check() { # WHAT COMMAND..: counts whether the command ends with 0
  local what=$1
  shift
  if "$@"; then
    passed=$((passed + 1))
  else
    failed=$((failed + 1))
    echo "FAILED: $what"
  fi
}
same() { # WHAT FOUND WANTED
  check "$1: found '$2', wanted '$3'" [ "$2" = "$3" ]
}
has() { # WHAT FILE PATTERN: a line of the file matches the pattern
  check "$1: no line like '$3' in: $(head -c 300 "$2")" grep -qE "$3" "$2"
}
skip() { echo "not tried: $*"; }
finish() {
  echo "$passed passed, $failed failed"
  [ "$failed" = 0 ]
}

# Waits until the command ends with 0, at most a minute.
until_true() {
  local end=$((SECONDS + 60))
  until "$@"; do
    [ $SECONDS -lt $end ] || return 1
    sleep 0.01
  done
}

# ---- a repository
new_repository() { # FOLDER PUBLISHER
  repository=$1 publisher=$1/publisher/$2
  mkdir -p "$publisher/catalog" "$publisher/file" "$publisher/pkg"
  printf '[repository]\nversion = 4\n' >"$repository/pkg5.repository"
}
payload() { # TEXT: stores it, and prints its name
  local name
  name=$(printf '%s\n' "$1" | sha1sum | cut -c1-40)
  mkdir -p "$publisher/file/${name:0:2}"
  printf '%s\n' "$1" >"$publisher/file/${name:0:2}/$name"
  echo "$name"
}
dir_line() { echo "dir group=bin mode=0755 owner=root path=$1"; }
file_line() { # PATH TEXT MODE [ATTRIBUTES]
  echo "file $(payload "$2") group=bin mode=$3 owner=root path=$1${4:+ $4}"
}
package() { # STEM VERSION: the manifest is standard input; the catalog is written anew
  local folder=$publisher/pkg/${1//\//%2F} stem version stems='' versions
  mkdir -p "$folder"
  cat >"$folder/$2"
  for folder in "$publisher"/pkg/*; do
    stem=$(basename "$folder") versions=
    for version in "$folder"/*; do versions="$versions${versions:+, }{\"version\": \"$(basename "$version")\"}"; done
    stems="$stems${stems:+, }\"${stem//%2F//}\": [$versions]"
  done
  printf '{"%s": {%s}}\n' "$(basename "$publisher")" "$stems" >"$publisher/catalog/catalog.base.C"
}
large_package() { # STEM FILES: one payload for all
  local name
  name=$(payload large)
  {
    dir_line large
    seq "$2" | sed "s|.*|file $name group=bin mode=0644 owner=root path=large/&|"
  } | package "$1" 1.0
}
