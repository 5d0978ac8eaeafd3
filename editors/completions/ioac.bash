# Completes the words of ioac in bash: commands, options, files, and the compositions of a source that stands in the line.

# The names of the compositions of those words that are files. An object has none to choose from.
_ioac_compositions() {
  local word
  for word in "$@"; do
    [ -f "$word" ] && sed -n 's/^ *composition \([A-Za-z0-9_]*\).*/\1/p' "$word" 2> /dev/null
  done
}

_ioac() {
  local word=${COMP_WORDS[COMP_CWORD]} before=${COMP_WORDS[COMP_CWORD - 1]}
  local commands='check compile dump replay log run monitor watch chart graph explain library help'
  local options
  if [ "$COMP_CWORD" -eq 1 ]; then
    mapfile -t COMPREPLY < <(compgen -W "$commands --help --version" -- "$word")
    return
  fi
  case ${COMP_WORDS[1]} in
    check) options='--compositions --explain --help' ;;
    compile) options='--comp --explain --help' ;;
    dump) options='--explain --help' ;;
    replay) options='--comp --log --invariants --states --enabled --coverage --until --json --explain --help' ;;
    log) options='--comp --log --until --explain --help' ;;
    run) options='--comp --alone --turns --seed --words --seeds --monitor --invariants --keep --json --inputs --resume --log --reports --coverage --explain --help' ;;
    monitor) options='--comp --strict --json --explain --help' ;;
    watch) options='--comp --first --json --explain --help' ;;
    chart) options='--comp --from --to --without --explain --help' ;;
    graph) options='--comp --explain --help' ;;
    explain) options='--explain --help' ;;
    library) options='--explain --help' ;;
    help) options='' ;;
    *) return ;;
  esac
  case $before in
    --comp | --monitor) mapfile -t COMPREPLY < <(compgen -W "$(_ioac_compositions "${COMP_WORDS[@]:2}")" -- "$word") ;;
    --turns | --seed | --seeds | --until | --from | --to | --without) COMPREPLY=() ;;
    --words | --keep | --inputs | --resume) mapfile -t COMPREPLY < <(compgen -f -- "$word") ;;
    *)
      case ${COMP_WORDS[1]}:$word in
        help:*) mapfile -t COMPREPLY < <(compgen -W "$commands" -- "$word") ;;
        *:-* | explain:* | library:*) mapfile -t COMPREPLY < <(compgen -W "$options" -- "$word") ;;
        *) mapfile -t COMPREPLY < <(compgen -f -- "$word") ;;
      esac
      ;;
  esac
}

complete -o filenames -F _ioac ioac
