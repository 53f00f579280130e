# What bash completes after smlshow: its options, and files.
_smlshow() {
  local word=${COMP_WORDS[COMP_CWORD]} before=${COMP_WORDS[COMP_CWORD-1]}
  COMPREPLY=()
  case $before in
    --color) COMPREPLY=($(compgen -W 'always never' -- "$word")); return ;;
    --explain) return ;;
  esac
  case $word in
    -*) COMPREPLY=($(compgen -W '--types --warnings --json --color --explain --version --help' -- "$word")) ;;
    *) COMPREPLY=($(compgen -f -- "$word")) ;;
  esac
}
complete -o filenames -F _smlshow smlshow
