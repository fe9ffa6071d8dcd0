#!/usr/bin/env bash
# c/ndbm.h alone is a C and a C++ text; its functions, and no others, are what the archive and the shared library show; the
# shared library needs libc alone; and the same texts give the same bytes wherever they stand.
. "$(dirname "$0")/common"
has_library

# compiles COMPILER STANDARD LANGUAGE: a text that has the header alone, twice
printf '#include "ndbm.h"\n#include "ndbm.h"\nextern int needed;\nint needed;\n' > alone
compiles() {
  "$1" "-std=$2" -x "$3" -Wall -Wextra -pedantic -Werror -I"$top/c" -fsyntax-only alone || wrong "$1 -std=$2 refuses the header"
  "$1" "-std=$2" -x "$3" -D_POSIX_C_SOURCE=200809L -pedantic -Werror -I"$top/c" -fsyntax-only alone ||
    wrong "$1 -std=$2 refuses the header with POSIX alone"
}
for compiler in cc gcc clang; do
  command -v "$compiler" > /dev/null || continue
  for standard in c99 c11; do compiles "$compiler" "$standard" c; done
  for source in "$top"/c/*.c; do
    "$compiler" -std=c11 "${strict[@]}" -fsyntax-only "$source" || wrong "$compiler warns of $source"
  done
done
cat > plus.cc <<'END'
#include <fcntl.h>
#include "ndbm.h"
int main() {
    char bytes[] = "key";
    datum key = {bytes, 3};
    DBM *db = dbm_open("t", O_RDWR | O_CREAT, 0644);
    bool good = db && dbm_store(db, key, key, DBM_INSERT) == 0 && dbm_fetch(db, key).dsize == 3 && dbmx_verify(db) == 0;
    dbm_close(db);
    return !good;
}
END
for compiler in c++ clang++; do
  command -v "$compiler" > /dev/null || { echo "left out: $compiler isn't installed"; continue; }
  for standard in c++98 c++11 c++17; do compiles "$compiler" "$standard" c++; done
  rm -f t.db
  "$compiler" -std=c++11 -Wall -Wextra -pedantic -Werror -I"$top/c" plus.cc "$library/libndbm.a" -o plus && ./plus ||
    wrong "a program in C++ by $compiler"
done

# the functions, as the compiler sees them declared
cc -E -P -I"$top/c" -x c alone | tr -s ' \n' ' ' | grep -oE '\bdbmx?_[a-z_]+ ?\(' | tr -d ' (' | sort > declared
cat > standard <<'END'
dbm_clearerr
dbm_close
dbm_delete
dbm_error
dbm_fetch
dbm_firstkey
dbm_nextkey
dbm_open
dbm_store
END
comm -23 standard declared | grep . && wrong "functions of the standard aren't declared"
[ "$(wc -l < declared)" -ge 18 ] || wrong "the header is read wrong: $(xargs < declared)"
nm -g --defined-only "$library/libndbm.a" | awk 'NF == 3 { print $3 }' | sort > archive
nm -D --defined-only "$library/libndbm.so.1" | awk '$2 != "A" { print $3 }' | sort > shared
diff declared archive || wrong "the archive shows something else than the header declares (< header, > archive)"
sed 's/$/@@KUMQUATFEN_1/' declared | sort | diff - shared ||
  wrong "the shared library shows something else than the header declares, with this version (< header, > shared library)"

# what the header says of itself
version=$(sed -n 's/^Version: //p' "$library/kumquatfen-ndbm.pc")
{ echo '#include "ndbm.h"'; echo "KUMQUATFEN_NDBM_VERSION $(printf 'KUMQUATFEN_NDBM_%s ' MAJOR MINOR PATCH) DBM_SUFFIX"; } > itself
said=$(cc -E -P -I"$top/c" -x c itself | tail -n 1)
[ "$said" = "\"$version\" ${version//./ } \".db\"" ] || wrong "the header says $said, and the library is of version $version"
said=$("$program" --version | grep -oE '[0-9]+\.[0-9]+\.[0-9]+' | head -n 1)
[ "$said" = "$version" ] || wrong "the program is of version $said, and the library of $version"

# how the shared library is linked
readelf -dW "$library/libndbm.so.1" > dynamic
readelf -lW "$library/libndbm.so.1" > segments
grep -q TEXTREL dynamic && wrong "the shared library has text relocations"
grep -q 'SONAME.*\[libndbm\.so\.1\]' dynamic || wrong "the shared library's soname isn't libndbm.so.1"
[ "$(grep NEEDED dynamic | grep -o '\[.*\]')" = '[libc.so.6]' ] || wrong "the shared library needs $(grep NEEDED dynamic)"
grep -qE 'RPATH|RUNPATH' dynamic && wrong "the shared library has a path of libraries"
grep -q 'BIND_NOW\|FLAGS.*NOW' dynamic || wrong "the shared library isn't bound at once"
grep -q GNU_RELRO segments || wrong "the shared library has no part that is read only behind its start"
readelf -nW "$library/libndbm.so.1" | grep -qE 'Build ID: [0-9a-f]{40}$' || wrong "the shared library has no build id"
nm "$library/libndbm.a" | grep -q ' U __stack_chk_fail$' || wrong "the C of the library has no guard of its stack"
grep GNU_STACK segments | grep -q 'RW ' || wrong "the shared library asks for a stack that can be run"
[ "$(readlink "$library/libndbm.so")" = libndbm.so.1 ] || wrong "libndbm.so isn't a link to libndbm.so.1"
printf '#include <ndbm.h>\nint main(void) { return dbm_error(0) != -1; }\n' > small.c
cc -I"$top/c" small.c "$library/libndbm.a" -o small && ./small || wrong "a program over the archive"
readelf -d small | grep NEEDED | grep -v '\[libc\.so\.6\]' && wrong "a program over the archive needs more than libc"

# A program over the shared library asks for its version, and one that was linked to a library without versions goes on. Each has the
# addresses of all functions.
{ printf '#include <ndbm.h>\n#include <fcntl.h>\nvoid (*const all[])(void) = {\n'; sed 's/.*/(void (*)(void))&,/' declared; } > all.c
cat >> all.c <<'END'
};
int main(void) {
    datum key = {"key", 3};
    DBM *db = dbm_open("all", O_RDWR | O_CREAT, 0644);
    int good = db && all[0] && !dbm_store(db, key, key, DBM_REPLACE) && dbm_fetch(db, key).dsize == 3;
    dbm_close(db);
    return !good;
}
END
mkdir older
sed 's/.*/void &(void) {}/' declared > older.c
cc -shared -fPIC -Wl,-soname,libndbm.so.1 older.c -o older/libndbm.so.1 && ln -s libndbm.so.1 older/libndbm.so || exit 1
for folder in older "$library"; do
  cc -I"$top/c" all.c "-L$folder" -lndbm -o all || { wrong "a program isn't linked to $folder"; continue; }
  readelf -VW all | grep -q KUMQUATFEN_1 && asks=1 || asks=
  [ "$folder,$asks" = older, ] || [ "$folder,$asks" = "$library,1" ] || wrong "a program linked to $folder: version '$asks'"
  LD_LIBRARY_PATH=$library LD_BIND_NOW=1 ./all > out 2>&1 && [ ! -s out ] || wrong "a program linked to $folder: $(cat out)"
done

# the same bytes at another place, with nothing in them of where that is
mkdir another
(cd "$top" && tar cf - --exclude=out --exclude=.git --exclude=must-fail --exclude=proofs .) | tar xf - -C another
another/c/build --archive "$library/libndbm_c.a" || wrong "the library isn't built at another place"
for file in libndbm.a libndbm.so.1 kumquatfen-ndbm.pc; do
  cmp "$library/$file" "another/c/out/$file" || wrong "$file has other bytes at another place"
  grep -qF -e "$top" -e "$work" -e "$HOME/" "$library/$file" && wrong "$file names a folder of this machine"
done

# nothing is made where all is there, and a change is seen
made=$(stat -c '%Y %i' another/c/out/libndbm.a)
another/c/build --archive "$library/libndbm_c.a" || wrong "a library that is built can't be built"
[ "$(stat -c '%Y %i' another/c/out/libndbm.a)" = "$made" ] || wrong "a library that is built is built again"
another/c/build --archive "$library/libndbm_c.a" --is-built || wrong "a library that is built isn't taken for built"
for file in ndbm.c ndbm.h parts.h serving.c sharing.c turn.c file.c owner.c build; do
  cp "another/c/$file" before
  echo >> "another/c/$file"
  another/c/build --archive "$library/libndbm_c.a" --is-built && wrong "a change of c/$file goes unseen"
  cp before "another/c/$file"
done
another/c/build --archive "$library/libndbm.a" --is-built && wrong "another archive goes unseen"
another/c/build --unknown 2> err; [ $? = 3 ] && grep -q '^usage: ' err || wrong "c/build takes unknown words"
grep -q "^const KNOWN_VERSIONS: &str = \"$version, " "$top/crates/dbm_command_line/src/commands.rt" ||
  wrong "kumquatfen-ndbm.pc is of version '$version'"

# the compiler and the words of the environment, behind the library's own
cat > noting <<'END'
#!/bin/sh
echo "$*" >> "${0%/*}/noted"
exec cc "$@"
END
chmod +x noting
how=(CC="$work/noting -DONE" CFLAGS='-DTWO=2 -O1' LDFLAGS=-Wl,--hash-style=sysv)
env "${how[@]}" another/c/build --archive "$library/libndbm_c.a" || wrong "the library isn't built by another compiler"
[ "$(grep -cE -- '^-DONE .* -O2 .*-D_FORTIFY_SOURCE=2 -DTWO=2 -O1 -c [a-z]+\.c ' noted)" = "$(ls "$top"/c/*.c | wc -l)" ] ||
  { wrong "CC and CFLAGS aren't heeded:"; cat noted; }
[ "$(grep -cE -- '^-DONE -shared .*-Wl,--build-id=sha1 -Wl,--hash-style=sysv ' noted)" = 1 ] ||
  { wrong "LDFLAGS isn't heeded:"; cat noted; }
readelf -dW another/c/out/libndbm.so.1 | grep -q '(HASH)' || wrong "the shared library isn't linked as LDFLAGS says"
env "${how[@]}" another/c/build --archive "$library/libndbm_c.a" --is-built ||
  wrong "a library by another compiler isn't taken for built"
another/c/build --archive "$library/libndbm_c.a" --is-built && wrong "another compiler goes unseen"
CC=$work/none another/c/build --archive "$library/libndbm.a" 2> err
[ $? = 2 ] && grep -q 'a C compiler' err || wrong "a compiler that isn't there is taken"
[ "$bad" = 0 ]
