#!/usr/bin/env bash
# The Python package, over the C library: its own tests, Python's tests of mappings where these are installed, and an installation by pip
# where there is one. A library that isn't Kumquatfen's is refused.
. "$(dirname "$0")/common"
has_library
export KUMQUATFEN_LIBRARY=$library/libndbm.so.1 PYTHONDONTWRITEBYTECODE=1
cp -r "$top/python" package

tests=(test_database)
if python3 -c 'from test import mapping_tests' 2> /dev/null; then tests+=(test_mapping); else echo "skipped: Python's own tests aren't installed"; fi
for it in "${tests[@]}"; do
  PYTHONPATH=package python3 -W error "package/tests/$it.py" > told 2>&1 || { wrong "$it:"; cat told; }
  tail -n 3 told | head -n 1
done

KUMQUATFEN_LIBRARY=libc.so.6 PYTHONPATH=package python3 -c 'import kumquatfen' 2> told && wrong "another library is taken"
grep -q '^ImportError: libc.so.6 is no library of Kumquatfen' told || { wrong "another library is refused so:"; cat told; }

# the first Python that has what pip needs to install a package that it doesn't fetch
with_pip() {
  local it
  for it in python3 /usr/bin/python3; do "$it" -c 'import setuptools, wheel, pip' 2> /dev/null && echo "$it" && return; done
  return 1
}

if python=$(with_pip); then
  "$python" -m pip install -q --no-index --no-build-isolation --no-deps --root-user-action=ignore --target installed ./package > told 2>&1 ||
    { wrong "pip:"; cat told; }
  PYTHONPATH=installed "$python" -c '
import kumquatfen
with kumquatfen.open("t", "c") as db:
    db["a"] = "1"
' || wrong "the installed package doesn't work"
  [ "$("$program" fetch t a)" = 1 ] || wrong "the program doesn't find what the installed package stored"
else
  echo "skipped: there is no pip with setuptools and wheel"
fi
exit $bad
