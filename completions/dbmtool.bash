# Completion of dbmtool for bash: its commands, their options, and the names of databases, without `.db`.

# The names of databases and folders that begin with a word.
_dbmtool_databases() {
  local name
  compgen -d -- "$1"
  compgen -f -X '!*.db' -- "$1" | while IFS= read -r name; do printf '%s\n' "${name%.db}"; done
}

# How many words behind the command are neither an option nor an option's number.
_dbmtool_places() {
  local at count=0
  for ((at = 2; at < COMP_CWORD; at++)); do
    case ${COMP_WORDS[at]} in
      --group | --limit | --memory | --stops | --syncs) at=$((at + 1)); [ "${COMP_WORDS[at]}" != = ] || at=$((at + 1)) ;;
      -*) ;;
      *) count=$((count + 1)) ;;
    esac
  done
  echo "$count"
}

_dbmtool() {
  local commands='create store insert fetch delete list dump load stat verify version upgrade resize backup salvage script rehearse faults help'
  local word=${COMP_WORDS[COMP_CWORD]} options='' places own
  COMPREPLY=()
  # The program's own options stand before the command.
  while [ "$COMP_CWORD" -gt 1 ]; do
    case ${COMP_WORDS[1]} in
      --verbose) own=1 ;;
      --wait | --cache) own=2; [ "${COMP_WORDS[2]}" != = ] || own=3 ;;
      *) break ;;
    esac
    # what they take is a number
    [ "$COMP_CWORD" -gt "$own" ] || return
    COMP_WORDS=("${COMP_WORDS[0]}" "${COMP_WORDS[@]:own + 1}")
    COMP_CWORD=$((COMP_CWORD - own))
  done
  if [ "$COMP_CWORD" = 1 ]; then
    mapfile -t COMPREPLY < <(compgen -W "$commands --cache --verbose --wait -h --help -V --version" -- "$word")
    return
  fi
  case ${COMP_WORDS[COMP_CWORD - 1]} in
    --group | --limit | --memory | --stops | --syncs | =) return ;;
    '<' | '>' | '>>' | '2>')
      compopt -o filenames 2> /dev/null
      mapfile -t COMPREPLY < <(compgen -f -- "$word")
      return
      ;;
  esac
  case ${COMP_WORDS[1]} in
    create) options='--limit --syncs --v2 -h --help' ;;
    store | insert | fetch | delete) options='-x -h --help' ;;
    script) options='--memory --read --text --v2 -h --help' ;;
    rehearse) options='--memory --stops --v2 -h --help' ;;
    list | dump) options='--text -h --help' ;;
    load) options='--group --limit --replace --text -h --help' ;;
    resize) options='--limit -h --help' ;;
    upgrade) options='--syncs -h --help' ;;
    stat | verify | version | backup | salvage | faults) options='-h --help' ;;
  esac
  places=$(_dbmtool_places)
  case $word,$places,${COMP_WORDS[1]} in
    -*) mapfile -t COMPREPLY < <(compgen -W "$options" -- "$word") ;;
    *,0,help) mapfile -t COMPREPLY < <(compgen -W "$commands" -- "$word") ;;
    *,*,faults | *,*,help) ;;
    *,0,* | *,1,backup)
      compopt -o filenames 2> /dev/null
      mapfile -t COMPREPLY < <(_dbmtool_databases "$word")
      ;;
  esac
}

complete -F _dbmtool dbmtool
