#!/usr/bin/env bash
# The programs in c/test touch no memory that isn't theirs, and lose none, as memcheck of valgrind sees it; and as the
# sanitizers of the compiler do, with which the C of the library is compiled over the crate's archive. A program that brings
# a malloc of its own is left to tests/c_calls.sh and c_sharing.sh alone, and one with long lists of pairs or with a thousand children,
# which takes minutes under memcheck, or that kills its children at a time or at a call of the system, to the sanitizers.
. "$(dirname "$0")/common"
has_library
. "$top/tests/c_words"
# Syncs take no time on a memory file system, and are as good here.
rooms=$work
if [ -w /dev/shm ]; then rooms=$(mktemp -d /dev/shm/c_memory.XXXXXX) && trap 'rm -rf "$work" "$rooms"' EXIT; fi
flags=(-std=c11 -D_GNU_SOURCE "${strict[@]}" -O1 -g -I"$top/c")

names=()
for file in "$top"/c/test/*.c; do
  if ! grep -q '^#include "refusing.h"' "$file"; then names+=("$(basename "$file" .c)"); fi
done
[ "${#names[@]}" -ge 10 ] || wrong "only ${#names[@]} programs are looked at"

# runs HOW NAME WORD..: the program that was compiled so ends well, in a folder of its own, with these words in front of it
runs() {
  local how=$1 name=$2 status
  shift 2
  mkdir -p "$rooms/$how/$name" && cd "$rooms/$how/$name" || exit 1
  timeout 600 "$@" "$work/$how/$name" "${words[@]}" > told 2>&1
  status=$?
  [ "$status" = 0 ] || wrong "$name, $how: status $status:
$(head -n 40 told)"
  rm -rf "${rooms:?}/$how"
}

# can NAME WORD..: a program that reads past its memory, run so, is seen
can() {
  mkdir "$work/$1" && cd "$work/$1" || exit 1
  printf '#include <stdlib.h>\nint main(void) { volatile char *at = malloc(3); return at && at[3] == 77; }\n' > past.c
  cc -g "${@:2}" -o past past.c 2> err
}

if ! command -v valgrind > /dev/null; then
  echo "left out: valgrind isn't installed"
else
  memcheck=(valgrind -q --error-exitcode=99 --leak-check=full '--errors-for-leak-kinds=definite,possible')
  can valgrind || exit 1
  "${memcheck[@]}" ./past 2> err
  [ $? = 99 ] || wrong "valgrind doesn't see a read past the memory: $(head -n 5 err)"
  for name in "${names[@]}"; do
    [ "$name" != beyond ] && [ "$name" != shared_deaths ] && [[ $name != build_sto* ]] || continue
    cc "${flags[@]}" -o "$work/valgrind/$name" "$top/c/test/$name.c" "$library/libndbm.a" -pthread ||
      wrong "$name isn't compiled"
    runs valgrind "$name" "${memcheck[@]}"
  done
fi

sanitized=('-fsanitize=address,undefined' -fno-sanitize-recover=all -fno-omit-frame-pointer)
archive=$library/libndbm_c.a
kit=$(command -v rt) && kit=$(dirname "$(dirname "$(realpath "$kit")")")
if ! can sanitizers "${sanitized[@]}"; then
  echo "left out: cc doesn't compile with -fsanitize=address,undefined"
elif [ ! -e "$archive" ] || [ ! -e "$kit/c/libos_c.a" ]; then
  echo "left out: the crate's archive or the kit's isn't there"
else
  ./past 2> err && wrong "the sanitizers don't see a read past the memory"
  for part in "$top"/c/*.c; do
    cc "${flags[@]}" -U_GNU_SOURCE "${sanitized[@]}" -c -o "$(basename "$part" .c).o" "$part" || wrong "$part isn't compiled"
  done
  for name in "${names[@]}"; do
    cc "${flags[@]}" "${sanitized[@]}" -o "$work/sanitizers/$name" "$top/c/test/$name.c" \
      "$work"/sanitizers/*.o "$archive" "$kit/c/libos_c.a" "$kit/c/liblibc_c.a" -pthread ||
      wrong "$name isn't compiled"
    runs sanitizers "$name" env UBSAN_OPTIONS=print_stacktrace=1
  done
fi
[ "$bad" = 0 ]
