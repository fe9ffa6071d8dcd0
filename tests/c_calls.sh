#!/usr/bin/env bash
# The programs in c/test call the C library, each in a folder of its own, linked to the archive and to the shared library. They
# tell what is wrong. Those of handles that share a file, shared_*.c, are left to tests/c_sharing.sh, and those of builds, build_*.c, to
# tests/c_builds.sh.
. "$(dirname "$0")/common"
has_library

. "$top/tests/c_words"

# calls HOW NAME LINKED..: the program of c/test/NAME.c, linked so, finds nothing wrong
calls() {
  local how=$1 name=$2
  shift 2
  mkdir "$work/$name.$how" && cd "$work/$name.$how" || exit 1
  if ! cc -std=c11 -D_GNU_SOURCE "${strict[@]}" -O1 -I"$top/c" -o program "$top/c/test/$name.c" "$@" -pthread; then
    wrong "$name isn't compiled"
    return
  fi
  timeout 120 ./program "${words[@]}" > told 2>&1 || wrong "$name, linked to the $how: status $?:
$(head -n 30 told)"
}

programs=0
for file in "$top"/c/test/*.c; do
  name=$(basename "$file" .c)
  [[ $name != shared_* && $name != build_* ]] || continue
  calls archive "$name" "$library/libndbm.a"
  calls shared "$name" "-L$library" "-Wl,-rpath,$library" -lndbm
  readelf -d "$work/$name.shared/program" | grep -q 'NEEDED.*libndbm\.so\.1' || wrong "$name isn't linked to libndbm.so.1"
  readelf -d "$work/$name.archive/program" | grep -q 'NEEDED.*libndbm' && wrong "$name is linked to libndbm.so.1"
  programs=$((programs + 1))
done
[ "$bad" = 0 ] && [ "$programs" -ge 10 ]
