# Completion for pcml in bash: install -Dm644 editors/pcml.bash ~/.local/share/bash-completion/completions/pcml
# Made by tools/completion.
# shellcheck shell=bash

# _pcml_give WORDS FLAGS..: those of the words, or of what compgen finds, that begin as the word at the cursor.
_pcml_give() {
  mapfile -t COMPREPLY < <(compgen -W "$1" "${@:2}" -- "$now")
}

_pcml_files() {
  compopt -o filenames 2>/dev/null
  _pcml_give '' -f
}

# The script that the line names: the first word behind the command that is neither an option nor its value.
_pcml_script() {
  local word before=
  for word in "${COMP_WORDS[@]:2}"; do
    case $before in
      --workers | --rows | --seasons | --journal | --need | --from | --to | --only | --as | --limit | --left | --never | --of | =) ;;
      *) [[ $word == [-=]* ]] || { echo "$word" && return; } ;;
    esac
    before=$word
  done
}

# The names of its processes. What is no file, or longer than a script may be, has none.
_pcml_processes() {
  local script
  script=$(_pcml_script)
  script=${script//[\'\"\\]/}
  script=${script/#\~\//$HOME/}
  if [ -f "$script" ] && [ -r "$script" ] && [ "$(wc -c <"$script")" -le 65536 ]; then
    LC_ALL=C tr -s '\t\r\n' ' ' <"$script" | LC_ALL=C grep -aoE '\bprocess [A-Za-z][A-Za-z0-9_]*' | cut -d' ' -f2
  fi
}

# Of names with commas between the one at the cursor.
_pcml_names() {
  local named=
  [[ $now != *,* ]] || named=${now%,*},
  now=${now##*,}
  _pcml_give "$([ -n "$named" ] || echo all) $(_pcml_processes)" -P "$named"
}

_pcml_printed() {
  compopt -o nospace 2>/dev/null
  _pcml_give "$(_pcml_processes)" -S =
}

# The options of a command.
_pcml_options() {
  case $1 in
    run) echo --workers --rows --seasons --journal --quiet --why --need --help ;;
    replay) echo --rows --seasons --help ;;
    why) echo --rows --seasons --short --help ;;
    chart) echo --rows --seasons --from --to --only --as --help ;;
    next) echo --rows --help ;;
    outcomes) echo --rows --limit --waiting --need --left --faults --never --only --first --journal --of --help ;;
    stats) echo --rows --seasons --help ;;
    *) echo --help ;;
  esac
}

_pcml() {
  local now=${COMP_WORDS[COMP_CWORD]} before=${COMP_WORDS[COMP_CWORD - 1]} command=${COMP_WORDS[1]-}
  local commands='run replay why chart next outcomes check play stats explain manual version meet help'
  COMPREPLY=()
  if [ "$COMP_CWORD" -eq 1 ]; then
    case $now in
      -*) _pcml_give '--help --prove' ;;
      *) _pcml_give "$commands" ;;
    esac
    return
  fi
  # --rows=4 is three words here, and a=4 too, whose value nobody knows.
  [ "$now" != = ] || now=
  [ "$before" != = ] || before=${COMP_WORDS[COMP_CWORD - 2]}
  [[ $before == -* || " ${COMP_WORDS[*]:COMP_CWORD-1:2} " != *' = '* ]] || return
  if [[ " ${COMP_WORDS[*]:1:COMP_CWORD-1} " == *' -- '* ]]; then
    _pcml_files
    return
  fi
  case $before in
    --workers) _pcml_give '1 2 4 8 16' ;;
    --rows) _pcml_give '256 1024' ;;
    --seasons | --from | --to | --limit | --of) ;;
    --journal) _pcml_files ;;
    --need | --only | --left) _pcml_names ;;
    --as) _pcml_give 'mermaid svg' ;;
    --never) _pcml_printed ;;
    *) _pcml_argument ;;
  esac
}

# A word that is no option's value.
_pcml_argument() {
  if [[ $now == -?* ]]; then
    _pcml_give "$(_pcml_options "$command")"
    return
  fi
  case $command in
    explain) _pcml_give '1 2 3 4 5 6 7 8 11 12 13 14 15 16 21 22 23 31 32 unset kind range shape waiting spent unstarted stranded left faulted printed deadlock nack journal stamp tail lawful maximal outcome configuration' ;;
    help) _pcml_give "$commands" ;;
    manual | version | meet) ;;
    *) _pcml_files ;;
  esac
}

complete -F _pcml pcml
