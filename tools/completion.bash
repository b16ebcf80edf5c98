# Completion for bash: of the options that a program's --help has and of their values that are files or folders, and, by position, of MODEL
# *.sim, DATA *.data, COMMANDS *.commands, tables and traces.
_simscript2() {
  local name=${1##*/} word=${COMP_WORDS[COMP_CWORD]} before=${COMP_WORDS[COMP_CWORD - 1]} option value at=0 i ending kinds
  local -A values=()
  local -A endings=([simscript2]='sim data commands' [ssdb]='sim data' [ssrun]='sim data' [ssrun-replicate]='sim /' [ssrun-compare]='csv csv'
    [ssrun-picture]='csv|trace ..' [ssrun-first-difference]='csv|trace csv|trace')
  COMPREPLY=()
  if [ "$name" != simscript2 ]; then
    while read -r option value; do
      values[$option]=$value
    done < <("$1" --help 2> /dev/null | sed -nE 's/^ +(-[a-zA-Z], )?(--[a-z-]+)([ =]<?([A-Z][A-Z0-9\/]*)>?)?( .*)?$/\2 \4/p')
  fi
  if [[ $word == -* ]]; then
    mapfile -t COMPREPLY < <(compgen -W "${!values[*]}" -- "$word")
    return
  fi
  if [ -n "${values[${before:-none}]}" ]; then
    ending=${values[$before]/FOLDER*//}
    [[ $ending == / || $ending == FILE ]] || return
  else
    for ((i = 1; i < COMP_CWORD; i++)); do
      if [ -n "${values[${COMP_WORDS[i]:-none}]}" ]; then
        i=$((i + 1))
      elif [[ ${COMP_WORDS[i]} != -* ]]; then
        at=$((at + 1))
      fi
    done
    read -ra kinds <<< "${endings[$name]:-none}"
    [ "${kinds[-1]}" != .. ] || at=0
    ending=${kinds[at]}
  fi
  [ -n "$ending" ] || return
  compopt -o filenames 2> /dev/null
  mapfile -t COMPREPLY < <(
    compgen -d -- "$word"
    case $ending in
    /) ;;
    FILE) compgen -f -- "$word" | while read -r i; do [ -d "$i" ] || echo "$i"; done ;;
    *) for i in ${ending//|/ }; do compgen -f -X "!*.$i" -- "$word"; done ;;
    esac
  )
}
complete -F _simscript2 simscript2 ssdb ssrun ssdap ssrun-replicate ssrun-compare ssrun-picture ssrun-first-difference
