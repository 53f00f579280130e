# What bash completes after smlserve: its options.
_smlserve() {
  COMPREPLY=($(compgen -W '--stdio --version --help' -- "${COMP_WORDS[COMP_CWORD]}"))
}
complete -F _smlserve smlserve
