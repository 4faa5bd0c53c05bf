# Completion of sccp for bash: commands, files, and what the plan in the words has: relays, selectors, subsystem numbers, points.
# To try it: source completions/sccp.bash

# Each command with its words. tools/make_man.py makes this table of docs/help.
_sccp_uses='
show-hex HEX
show FILE
cuts HEX
route PLAN NODE SELECTOR SSN DIGITS
verify PLAN
covers PLAN
unused PLAN
margin PLAN LOSSES
margin PLAN LOSSES subsystems
change OLD NEW
order OLD NEW
replay PLAN TRACE WORKERS
load NUMBER SIZE WORKERS
send-on PLAN NODE ORIGIN SIZE HEX
connect PLAN NODE FROM SELECTOR SSN DIGITS HEX
capture PLAN FILE
import PLAN FILE
conform PLAN FILE
wide COMMAND WORD..
--json COMMAND WORD..
--help COMMAND
--version
--prove
'
# The end of the table.

# Sets kind to what may take the place of the last of these words, plan to the first plan before it, and wide to 1 after that word.
_sccp_look() {
  local line use place
  kind=COMMAND plan='' wide=0
  # After --json all words are as without it, and after wide those of a command that reads a plan.
  [ $# -gt 1 ] && [ "$1" = --json ] && shift
  [ $# -gt 1 ] && [ "$1" = wide ] && wide=1 && shift
  [ $# -gt 1 ] || return
  kind=''
  while read -r line; do
    read -ra use <<<"$line"
    # Of a command's lines, the first that has so many words.
    [ "${use[0]-}" = "$1" ] && [ ${#use[@]} -ge $# ] || continue
    _sccp_may_follow "$line" || break
    for ((place = 1; place < $#; place++)); do
      kind=${use[place]-}
      if [ -z "$plan" ] && ((place < $# - 1)); then
        case $kind in PLAN | OLD) plan=${*:place+1:1} ;; esac
      fi
    done
    return
  done <<<"$_sccp_uses"
}

# Whether a command may follow the words before it: after wide, if it reads a plan.
_sccp_may_follow() { ((!wide)) || [[ $1 == *' '@(PLAN|OLD)* ]]; }

# The values that these keys have in the plan, one a line.
_sccp_values() {
  local file=${plan/#\~/$HOME} keys=$1
  [ -f "$file" ] || return
  awk -v keys="$keys" '
    { sub(/^[ \t]*#.*/, "") }
    {
      while (match($0, "(^|[^A-Za-z0-9_-])(" keys ")[ \t]*=[ \t]*(\"[^\"]*\"|\\[[^]]*\\]|[0-9]+)")) {
        text = substr($0, RSTART, RLENGTH)
        $0 = substr($0, RSTART + RLENGTH)
        sub(/^[^=]*=/, "", text)
        gsub(/[][", \t]+/, "\n", text)
        print text
      }
    }' "$file" | sort -u
}

# The commands. The words of the launcher are offered if one is begun, and if the program is called by a path, as the launcher is.
_sccp_first() {
  local kept=-v line
  [[ $current == -* && $program == */* && ${#words[@]} -eq 1 ]] && kept=-e
  while read -r line; do
    _sccp_may_follow "$line" && echo "${line%% *}"
  done <<<"$_sccp_uses" | grep $kept '^--'
}

_sccp() {
  local words program current kind plan wide
  read -ra words <<<"${COMP_LINE:0:COMP_POINT}"
  [[ ${COMP_LINE:0:COMP_POINT} == *[[:blank:]] ]] && words+=('')
  program=${words[0]}
  words=("${words[@]:1}")
  current=${words[${#words[@]} - 1]-}
  _sccp_look "${words[@]}"
  COMPREPLY=()
  case $kind in
    COMMAND) mapfile -t COMPREPLY < <(compgen -W "$(_sccp_first)" -- "$current") ;;
    PLAN | OLD | NEW)
      compopt -o filenames 2>/dev/null
      mapfile -t COMPREPLY < <(compgen -f -X '!*.toml' -- "$current"; compgen -d -- "$current")
      [ ${#COMPREPLY[@]} -gt 0 ] || mapfile -t COMPREPLY < <(compgen -f -- "$current")
      ;;
    FILE | TRACE)
      compopt -o filenames 2>/dev/null
      mapfile -t COMPREPLY < <(compgen -f -- "$current")
      ;;
    NODE) mapfile -t COMPREPLY < <(compgen -W "$(_sccp_values name)" -- "$current") ;;
    SELECTOR) mapfile -t COMPREPLY < <(compgen -W "$(_sccp_values selector)" -- "$current") ;;
    SSN) mapfile -t COMPREPLY < <(compgen -W "0 $(_sccp_values 'ssn|subsystems')" -- "$current") ;;
    FROM | ORIGIN) mapfile -t COMPREPLY < <(compgen -W "$(_sccp_values 'final|concerned')" -- "$current") ;;
    WORKERS) mapfile -t COMPREPLY < <(compgen -W "$(seq 16)" -- "$current") ;;
    # A word in small letters is the word itself.
    [a-z]*) mapfile -t COMPREPLY < <(compgen -W "$kind" -- "$current") ;;
  esac
  # For bash a colon ends a word, so all up to the last one is there already.
  if [[ $current == *:* && $COMP_WORDBREAKS == *:* ]]; then
    COMPREPLY=("${COMPREPLY[@]#"${current%"${current##*:}"}"}")
  fi
}

complete -F _sccp sccp
