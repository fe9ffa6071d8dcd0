#!/usr/bin/env bash
# Python's module _dbm and Perl's NDBM_File, built over the C library as docs/MIGRATING.md says, pass the tests that come with
# them. KUMQUATFEN_SOURCES names a folder that has their sources, Python-3.11.2 and perl-5.36.0; without it this is left out.
# A Python 3.11 and a Perl 5.36.0 have to be installed, with the headers for modules in C.
. "$(dirname "$0")/common"
has_library
[ -n "${KUMQUATFEN_SOURCES:-}" ] || { echo "left out: KUMQUATFEN_SOURCES isn't set"; exit 0; }
sources=$(realpath "$KUMQUATFEN_SOURCES") || exit 1

# the library as ./install --library puts it
mkdir -p usr/include/kumquatfen usr/lib/pkgconfig
cp "$top/c/ndbm.h" usr/include/kumquatfen
cp -P "$library"/libndbm.{a,so,so.1} usr/lib
cp "$library/kumquatfen-ndbm.pc" usr/lib/pkgconfig
export PKG_CONFIG_PATH=$work/usr/lib/pkgconfig LD_LIBRARY_PATH=$work/usr/lib
command -v pkg-config > /dev/null || { echo "left out: pkg-config isn't installed"; exit 0; }

# recipe HEADING: the commands below this heading of docs/MIGRATING.md
recipe() { sed -n "/^### $1\$/,/^##/s/^    //p" "$top/docs/MIGRATING.md"; }

# is_over FILE: it is linked to this library, and to no other dbm
is_over() {
  ldd "$1" > linked
  grep -q "=> $work/usr/lib/libndbm\.so\.1 " linked && ! grep -qE 'gdbm|libdb' linked ||
    { wrong "$1 is over another library:"; cat linked; }
}

# python_of MINOR: the program itself of an installed Python of this minor version that can compile a module
python_of() {
  local it
  for it in "python$1" python3 "/usr/bin/python$1"; do
    command -v "$it" > /dev/null || continue
    "$it" -c "
import os, sys, sysconfig
header = os.path.join(sysconfig.get_paths()['include'], 'Python.h')
if '%d.%d' % sys.version_info[:2] != '$1' or not os.path.exists(header): sys.exit(1)
print(os.path.realpath(sys.executable))" && return
  done
  return 1
}

python_part() {
  local source=$sources/Python-3.11.2 tests=(test_dbm_ndbm test_dbm test_shelve) each
  [ -d "$source" ] || { echo "left out: there is no $source"; return; }
  mkdir -p "$work/python/bin" && cd "$work/python" || exit 1
  ln -s "$(python_of 3.11)" bin/python3 2> /dev/null
  [ -x bin/python3 ] || { echo "left out: no Python 3.11 with its header is installed"; return; }
  ln -s "$source" Python-3.11.2
  # the tests of the same source
  ln -s "$source/Lib/test" test
  recipe "Python's dbm.ndbm" > recipe
  grep -q '_dbmmodule\.c' recipe && grep -q "test ${tests[*]}\$" recipe ||
    { wrong "Python's recipe is read wrong"; return; }
  sed -i "s/ -m test / -m test -v /" recipe
  PATH=$work/python/bin:$PATH bash -e recipe > said 2>&1 ||
    { wrong "Python's recipe ends with status $?:"; tail -n 40 said; return; }
  is_over ./_dbm*.so
  [ "$(PYTHONPATH=$PWD bin/python3 -c 'import dbm.ndbm, _dbm; print(_dbm.__file__)')" = "$(echo "$PWD"/_dbm*.so)" ] ||
    wrong "Python uses another _dbm"
  for each in "${tests[@]}"; do grep -qE "^[0-9:]+ .*\[[0-9]/3\] $each( passed)?\$" said || wrong "$each wasn't run"; done
  grep -q "skipped .*ndbm\|$(printf '%s skipped' "${tests[0]}")" said && wrong "Python's tests of dbm.ndbm were skipped"
  awk '/^Ran [0-9]+ tests/ { ran += $2 } /^OK \(skipped=/ { gsub(/[^0-9]/, ""); skipped += $0 }
       END { printf "Python: %d tests were run, of which %d were skipped\n", ran, skipped; exit ran < 100 }' said ||
    wrong "too few of Python's tests were run"
}

perl_part() {
  local source=$sources/perl-5.36.0
  [ -d "$source" ] || { echo "left out: there is no $source"; return; }
  perl -e 'exit !($^V eq "v5.36.0")' && perl -MExtUtils::MakeMaker -MConfig -e 'exit !-e "$Config{archlibexp}/CORE/perl.h"' ||
    { echo "left out: no Perl 5.36.0 with its headers is installed"; return; }
  # the tests stand two folders below those that they read
  mkdir -p "$work/perl/t/lib" "$work/perl/lib" "$work/perl/ext/room" && cd "$work/perl/ext/room" || exit 1
  cp "$source/t/lib/dbmt_common.pl" ../../t/lib && cp "$source/lib/dbm_filter_util.pl" ../../lib || exit 1
  ln -s "$source" perl-5.36.0
  recipe "Perl's NDBM_File" > recipe
  grep -q 'perl Makefile\.PL' recipe || { wrong "Perl's recipe is read wrong"; return; }
  sed -i 's/^cp -r \(.*\) \. && cd NDBM_File$/cp -r \1 .. \&\& cd ..\/NDBM_File/' recipe
  bash -e recipe > said 2>&1 || { wrong "Perl's recipe ends with status $?:"; tail -n 40 said; return; }
  cd ../NDBM_File || { wrong "Perl's recipe makes no folder"; return; }
  is_over blib/arch/auto/NDBM_File/NDBM_File.so
  prove -b -v t/*.t > tested 2>&1 || { wrong "Perl's tests:"; grep -v '^ok' tested | tail -n 40; }
  echo "Perl: $(grep -c '^ok [0-9]' tested) tests passed, of which $(grep -c '# skip' tested) were skipped"
  [ "$(grep -c '^ok [0-9]' tested)" -ge 50 ] || wrong "too few of Perl's tests were run"
}

python_part
perl_part
[ "$bad" = 0 ]
