# Completion of port1-sample for fish.

complete -c port1-sample -f
complete -c port1-sample -l octets -x -a '1 2 3 4 5 6 7 8' -d 'The octets of a sample'
complete -c port1-sample -l runs -d 'Records of levels and how many samples they stand'
complete -c port1-sample -l jump -x -d 'With --facts, a jump is more than N samples'
complete -c port1-sample -l facts -d 'Write to standard error what is counted in the samples'
complete -c port1-sample -l live -d 'With --facts, write it after each read, too'
complete -c port1-sample -l hold -x -d 'A level counts once it stood in N + 1 samples'
complete -c port1-sample -l rest -x -d 'A clock that stands for more than N samples has stopped'
complete -c port1-sample -l falling -d 'Bits are taken where clocks fall'
complete -c port1-sample -l invert-txc -d 'TXC is inverted'
complete -c port1-sample -l invert-txd -d 'TXD is inverted'
complete -c port1-sample -l invert-rxc -d 'RXC is inverted'
complete -c port1-sample -l invert-rxd -d 'RXD is inverted'
complete -c port1-sample -s h -l help -d 'Print help'
complete -c port1-sample -s V -l version -d 'Print the version'
