# What fish completes after smlcheck: its options, and files.
complete -c smlcheck -l warnings -d 'Print the warnings of accepted declarations'
complete -c smlcheck -l reply -x -a '1 2' -d 'The version of the replies'
complete -c smlcheck -l then -r -F -d 'Check a second project after PROJECT'
complete -c smlcheck -s h -l help -d 'Print help'
