# What fish completes after smlserve: its options.
complete -c smlserve -f
complete -c smlserve -l stdio -d 'Change nothing'
complete -c smlserve -s V -l version -d 'Print the version'
complete -c smlserve -s h -l help -d 'Print help'
