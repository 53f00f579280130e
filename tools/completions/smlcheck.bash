# What bash completes after smlcheck: its options, and files.
_smlcheck() {
  local word=${COMP_WORDS[COMP_CWORD]} before=${COMP_WORDS[COMP_CWORD-1]}
  COMPREPLY=()
  case $before in
    --reply) COMPREPLY=($(compgen -W '1 2' -- "$word")); return ;;
    --then) COMPREPLY=($(compgen -f -- "$word")); return ;;
  esac
  case $word in
    -*) COMPREPLY=($(compgen -W '--warnings --reply --then --help' -- "$word")) ;;
    *) COMPREPLY=($(compgen -f -- "$word")) ;;
  esac
}
complete -o filenames -F _smlcheck smlcheck
