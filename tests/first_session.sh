#!/usr/bin/env bash
# The first session of README.md and its faults, and all commands of docs/SCRIPTS.md, line by line: each command prints what stands below it.
. "$(dirname "$0")/common"
ln -s "$program" dbmtool
for part in 'A first session' 'When something is wrong'; do
  sed -n "/^## $part\$/,/^## /p" "$top/README.md" | sed -n 's/^    //p' >> session
done
sed -n 's/^    //p' "$top/docs/SCRIPTS.md" >> session
commands=0
while IFS= read -r line; do
  case $line in
    '$ '*) bash -c "${line#\$ }" >> found 2>&1 < /dev/null; commands=$((commands + 1)) ;;
    *) printf '%s\n' "$line" >> wanted ;;
  esac
done < session
diff wanted found || { echo "the session prints something else than the documents say (< documents, > program)"; exit 1; }
echo "$commands commands"
[ "$commands" -ge 25 ]
