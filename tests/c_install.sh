#!/usr/bin/env bash
# ./install --library and ./release: what they put where, that a program is compiled over it by pkg-config, that all of it is
# taken away again, that a release has the same bytes each time, its own checksum and an `install` of its own, and that its packages are
# made where the system has what makes them.
. "$(dirname "$0")/common"
has_library
umask 022

cat > program.c <<'END'
#include <fcntl.h>
#include <ndbm.h>
int main(void) {
    DBM *db = dbm_open("t", O_RDWR | O_CREAT, 0644);
    datum key = {(char *)"key", 3};
    int good = db && dbm_store(db, key, key, DBM_REPLACE) == 0 && dbm_fetch(db, key).dsize == 3;
    dbm_close(db);
    return !good;
}
END

# is_usable PREFIX [LIBDIR]: programs are compiled over what stands there, and run
is_usable() {
  local flags folder=$1/${2:-lib}
  cc -std=c11 -I"$1/include/kumquatfen" program.c "$folder/libndbm.a" -o static && ./static ||
    wrong "a program over $folder/libndbm.a"
  sed 's|<ndbm.h>|<kumquatfen/ndbm.h>|' program.c > nested.c
  cc -std=c11 -I"$1/include" -fsyntax-only nested.c || wrong "<kumquatfen/ndbm.h> isn't found"
  if command -v pkg-config > /dev/null; then
    flags=$(PKG_CONFIG_PATH=$folder/pkgconfig pkg-config --cflags --libs kumquatfen-ndbm) || wrong "pkg-config doesn't find it"
    # shellcheck disable=SC2086
    cc -std=c11 program.c $flags -o shared && LD_LIBRARY_PATH=$folder ./shared || wrong "a program by pkg-config: $flags"
    readelf -d shared | grep -q 'NEEDED.*libndbm\.so\.1' || wrong "pkg-config doesn't lead to libndbm.so.1"
  else
    echo "pkg-config isn't installed: its file wasn't tried"
  fi
}

cat > wanted <<'END'
755 bin/dbmtool
644 include/kumquatfen/ndbm.h
644 lib/libndbm.a
777 lib/libndbm.so
755 lib/libndbm.so.1
644 lib/pkgconfig/kumquatfen-ndbm.pc
644 share/bash-completion/completions/dbmtool
644 share/doc/kumquatfen/CHANGELOG.md
644 share/doc/kumquatfen/LIBRARY.md
644 share/doc/kumquatfen/LICENSE
644 share/doc/kumquatfen/MIGRATING.md
644 share/man/man1/dbmtool.1
644 share/man/man3/ndbm.3
644 share/zsh/site-functions/_dbmtool
END
# files FOLDER: what stands there, with modes
files() { (cd "$1" && find . ! -type d -printf '%m %P\n' | sort -k 2); }

# a PREFIX with no slash would stand right behind DESTDIR
status=0
DESTDIR=$work/dest "$top/install" it > out 2>&1 || status=$?
[ $status = 3 ] && [ ! -e "$work/destit" ] || wrong "DESTDIR and a PREFIX with no slash: status $status"

# below DESTDIR, and without
DESTDIR=$work/dest "$top/install" --library /opt/it > out 2>&1 || { wrong "./install --library:"; cat out; }
files dest/opt/it | diff wanted - || wrong "other files are installed (> installed)"
[ "$(find dest ! -type d | wc -l)" = 14 ] || wrong "files are installed beside the prefix"
"$top/install" --library "$work/usr" > out 2>&1 || { wrong "./install --library:"; cat out; }
files usr | diff wanted - || wrong "other files are installed (> installed)"
[ "$(readlink usr/lib/libndbm.so)" = libndbm.so.1 ] || wrong "lib/libndbm.so isn't a link to libndbm.so.1"
for pair in c/ndbm.h,include/kumquatfen/ndbm.h docs/ndbm.3,share/man/man3/ndbm.3 c/out/libndbm.so.1,lib/libndbm.so.1; do
  cmp "$top/${pair%,*}" "usr/${pair#*,}" || wrong "${pair%,*} isn't what is installed"
done
is_usable "$work/usr"
mv usr moved && is_usable "$work/moved" && mv moved usr

# taken away, with what else is there left
touch usr/lib/another
"$top/install" --remove "$work/usr" || wrong "./install --remove"
[ ! -e usr/include/kumquatfen ] && [ ! -e usr/share/doc/kumquatfen ] || wrong "a folder that is ours alone is left behind"
[ "$(find usr ! -type d)" = usr/lib/another ] || { wrong "left behind:"; find usr ! -type d; }
DESTDIR=$work/dest "$top/install" --remove /opt/it && [ -z "$(find dest ! -type d)" ] || wrong "left behind below DESTDIR"
"$top/install" "$work/tool" > out 2>&1 || { wrong "./install:"; cat out; }
grep -E ' (bin|share/(bash|zsh|doc|man/man1))' wanted | grep -v LIBRARY | diff - <(files tool) || wrong "without --library other files (> installed)"
# the library in a folder of another name
for folder in lib64 lib/x86_64-linux-gnu; do
  LIBDIR=$folder "$top/install" --library "$work/other" > out 2>&1 || { wrong "LIBDIR=$folder ./install:"; cat out; }
  sed "s| lib/| $folder/|" wanted | sort -k 2 | diff - <(files other) || wrong "with LIBDIR=$folder other files (> installed)"
  is_usable "$work/other" "$folder"
  LIBDIR=$folder "$top/install" --remove "$work/other" && [ -z "$(find other ! -type d)" ] || wrong "left behind below $folder"
done
for folder in /lib lib/ ../lib lib/../lib; do
  LIBDIR=$folder "$top/install" --library "$work/other" > out 2>&1; [ $? = 3 ] || wrong "LIBDIR=$folder is taken"
done
for words in '--library --remove' '--remove --library' '--library a b' '--unknown'; do
  # shellcheck disable=SC2086
  "$top/install" $words > out 2> err; [ $? = 3 ] && grep -q '^usage: .*--library' err || wrong "./install $words: no usage"
done

# a release, twice
version=$(sed -n 's/^Version: //p' "$library/kumquatfen-ndbm.pc")
name=kumquatfen-$version-x86_64-linux
declare -A umasks=([first]=022 [second]=077)
for folder in first second; do
  (umask "${umasks[$folder]}" && cd / && "$top/release" "$work/$folder") > out 2> err || { wrong "./release:"; cat err; }
  [ "$(cat out)" = "$work/$folder/$name.tar.gz" ] || wrong "./release says '$(cat out)'"
  [ "$(ls "$folder")" = "$name.tar.gz"$'\n'"$name.tar.gz.sha256" ] || wrong "./release leaves $(ls "$folder")"
  (cd "$folder" && sha256sum -c --quiet "$name.tar.gz.sha256") || wrong "the checksum of $folder"
done
cmp "first/$name.tar.gz" "second/$name.tar.gz" || wrong "a second release has other bytes"
mkdir unpacked && tar xzf "first/$name.tar.gz" -C unpacked
{ cat wanted; echo '755 install'; cd "$top" && find debian ! -type d -printf '%m %p\n'; } | sort -k 2 > wanted.release
files "unpacked/$name" | diff wanted.release - || wrong "a release has other files (> release)"
date=$(date -d "$(sed -n 's/^ -- .*>  //p;T;q' "$top/debian/changelog")" +%Y-%m-%d)
TZ=UTC tar tvzf "first/$name.tar.gz" | awk -v date="$date" '$2 != "0/0" || $4 != date' | grep . && wrong "a release names owners or times"
"unpacked/$name/install" --library "$work/taken" || wrong "install of a release"
files taken | diff wanted - || wrong "a release installs other files (> installed)"
is_usable "$work/taken"
is_usable "$work/unpacked/$name"
[ "$("unpacked/$name/bin/dbmtool" --version)" = "$("$program" --version)" ] || wrong "the released program is another one"
# packages of the archive
if command -v dpkg-buildpackage > /dev/null && command -v dh > /dev/null; then
  (cd "unpacked/$name" && dpkg-buildpackage -b -us -uc) > out 2>&1 || { wrong "dpkg-buildpackage:"; tail -n 20 out; }
  for package in dbmtool libndbm-kumquatfen1 libndbm-kumquatfen-dev; do
    dpkg-deb -x "unpacked/${package}_${version}_amd64.deb" packages || wrong "there is no package $package"
  done
  is_usable "$work/packages/usr" "lib/$(dpkg-architecture -qDEB_HOST_MULTIARCH)"
  [ "$(packages/usr/bin/dbmtool --version)" = "$("$program" --version)" ] || wrong "the packaged program is another one"
else
  echo "dpkg-buildpackage or debhelper isn't installed: no package was made"
fi
"$top/release" a b > out 2> err; [ $? = 3 ] && grep -q '^usage: ' err || wrong "./release takes unknown words"
[ "$bad" = 0 ]
