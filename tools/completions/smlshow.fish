# What fish completes after smlshow: its options, and files.
complete -c smlshow -l types -d 'Print what accepted declarations bind'
complete -c smlshow -l warnings -d 'Print the warnings of accepted declarations'
complete -c smlshow -l json -d 'Print an object of JSON a line'
complete -c smlshow -l color -x -a 'always never' -d 'Print codes and carets in color'
complete -c smlshow -l explain -x -d 'Print what a code means'
complete -c smlshow -l version -d 'Print the version'
complete -c smlshow -s h -l help -d 'Print help'
