# completions of sisyn for fish
complete -c sisyn -f
complete -c sisyn -n 'test (count (commandline -opc)) -eq 1' -a '--help' -d 'how sisyn is called'
complete -c sisyn -n 'test (count (commandline -opc)) -eq 1' -a 'check' -d 'the size of a graph, where it is proper'
complete -c sisyn -n 'test (count (commandline -opc)) -eq 2; and test (commandline -opc)[2] = check' -F
complete -c sisyn -n 'test (count (commandline -opc)) -eq 1' -a 'states' -d 'its states: their codes, what they enable'
complete -c sisyn -n 'test (count (commandline -opc)) -eq 2; and test (commandline -opc)[2] = states' -F
complete -c sisyn -n 'test (count (commandline -opc)) -eq 1' -a 'regions' -d 'where events are excited, and what follows'
complete -c sisyn -n 'test (count (commandline -opc)) -eq 2; and test (commandline -opc)[2] = regions' -F
complete -c sisyn -n 'test (count (commandline -opc)) -eq 1' -a 'conflicts' -d 'states that no gates can tell apart'
complete -c sisyn -n 'test (count (commandline -opc)) -eq 2; and test (commandline -opc)[2] = conflicts' -F
complete -c sisyn -n 'test (count (commandline -opc)) -eq 1' -a 'explain' -d 'walks to them, and which no signal resolves'
complete -c sisyn -n 'test (count (commandline -opc)) -eq 2; and test (commandline -opc)[2] = explain' -F
complete -c sisyn -n 'test (count (commandline -opc)) -eq 1' -a 'lint' -d 'dead ends, and more worth a second look'
complete -c sisyn -n 'test (count (commandline -opc)) -eq 2; and test (commandline -opc)[2] = lint' -F
complete -c sisyn -n 'test (count (commandline -opc)) -eq 1' -a 'covers' -d 'sums for each signal, and monotonous cubes'
complete -c sisyn -n 'test (count (commandline -opc)) -eq 2; and test (commandline -opc)[2] = covers' -F
complete -c sisyn -n 'test (count (commandline -opc)) -eq 1' -a 'fold' -d 'the graph with alike states merged'
complete -c sisyn -n 'test (count (commandline -opc)) -eq 2; and test (commandline -opc)[2] = fold' -F
complete -c sisyn -n 'test (count (commandline -opc)) -eq 1' -a 'dot' -d 'the graph as a picture for Graphviz'
complete -c sisyn -n 'test (count (commandline -opc)) -eq 2; and test (commandline -opc)[2] = dot' -F
complete -c sisyn -n 'test (count (commandline -opc)) -eq 1' -a 'synth' -d 'a netlist of complex gates'
complete -c sisyn -n 'test (count (commandline -opc)) -eq 2; and test (commandline -opc)[2] = synth' -F
complete -c sisyn -n 'test (count (commandline -opc)) -eq 3; and test (commandline -opc)[2] = synth' -a 'complex gc'
complete -c sisyn -n 'test (count (commandline -opc)) -eq 1' -a 'suggest' -d 'the same by a wider search'
complete -c sisyn -n 'test (count (commandline -opc)) -eq 2; and test (commandline -opc)[2] = suggest' -F
complete -c sisyn -n 'test (count (commandline -opc)) -eq 3; and test (commandline -opc)[2] = suggest' -a 'complex gc'
complete -c sisyn -n 'test (count (commandline -opc)) -eq 1' -a 'map' -d 'a netlist of cells of a library'
complete -c sisyn -n 'test (count (commandline -opc)) -eq 2; and test (commandline -opc)[2] = map' -F
complete -c sisyn -n 'test (count (commandline -opc)) -eq 3; and test (commandline -opc)[2] = map' -a 'genlib' -F
complete -c sisyn -n 'test (count (commandline -opc)) -eq 4; and test (commandline -opc)[2] = map' -a 'suggest plain' -F
complete -c sisyn -n 'test (count (commandline -opc)) -eq 5; and test (commandline -opc)[2] = map' -a 'plain suggest'
complete -c sisyn -n 'test (count (commandline -opc)) -eq 6; and test (commandline -opc)[2] = map' -a 'plain'
complete -c sisyn -n 'test (count (commandline -opc)) -eq 1' -a 'resolve' -d 'the graph with its conflicts resolved'
complete -c sisyn -n 'test (count (commandline -opc)) -eq 2; and test (commandline -opc)[2] = resolve' -F
complete -c sisyn -n 'test (count (commandline -opc)) -eq 3; and test (commandline -opc)[2] = resolve' -a 'suggest'
complete -c sisyn -n 'test (count (commandline -opc)) -eq 1' -a 'insert' -d 'the graph after insertions of a netlist'
complete -c sisyn -n 'test (count (commandline -opc)) -eq 2; and test (commandline -opc)[2] = insert' -F
complete -c sisyn -n 'test (count (commandline -opc)) -eq 3; and test (commandline -opc)[2] = insert' -a 'gate' -F
complete -c sisyn -n 'test (count (commandline -opc)) -eq 4; and test (commandline -opc)[2] = insert' -F
complete -c sisyn -n 'test (count (commandline -opc)) -eq 1' -a 'genlib' -d 'a library of genlib as a library of cells'
complete -c sisyn -n 'test (count (commandline -opc)) -eq 2; and test (commandline -opc)[2] = genlib' -F
complete -c sisyn -n 'test (count (commandline -opc)) -eq 1' -a 'verilog' -d 'a netlist as a module of Verilog'
complete -c sisyn -n 'test (count (commandline -opc)) -eq 2; and test (commandline -opc)[2] = verilog' -F
complete -c sisyn -n 'test (count (commandline -opc)) -eq 3; and test (commandline -opc)[2] = verilog' -a 'reset genlib' -F
complete -c sisyn -n 'test (count (commandline -opc)) -eq 4; and test (commandline -opc)[2] = verilog' -a 'inverters reset' -F
complete -c sisyn -n 'test (count (commandline -opc)) -eq 5; and test (commandline -opc)[2] = verilog' -a 'inverters reset'
complete -c sisyn -n 'test (count (commandline -opc)) -eq 6; and test (commandline -opc)[2] = verilog' -a 'inverters'
complete -c sisyn -n 'test (count (commandline -opc)) -eq 7; and test (commandline -opc)[2] = verilog' -a 'inverters'
complete -c sisyn -n 'test (count (commandline -opc)) -eq 1' -a 'eqn' -d 'a netlist as equations'
complete -c sisyn -n 'test (count (commandline -opc)) -eq 2; and test (commandline -opc)[2] = eqn' -F
complete -c sisyn -n 'test (count (commandline -opc)) -eq 1' -a 'loops' -d 'which pins to cut, so that it has no loop'
complete -c sisyn -n 'test (count (commandline -opc)) -eq 2; and test (commandline -opc)[2] = loops' -F
complete -c sisyn -n 'test (count (commandline -opc)) -eq 3; and test (commandline -opc)[2] = loops' -a 'genlib' -F
complete -c sisyn -n 'test (count (commandline -opc)) -eq 4; and test (commandline -opc)[2] = loops' -F
complete -c sisyn -n 'test (count (commandline -opc)) -eq 1' -a 'reset' -d 'which outputs to force, so that it starts'
complete -c sisyn -n 'test (count (commandline -opc)) -eq 2; and test (commandline -opc)[2] = reset' -F
complete -c sisyn -n 'test (count (commandline -opc)) -eq 1' -a 'replay' -d 'where a schedule over a netlist ends'
complete -c sisyn -n 'test (count (commandline -opc)) -eq 2; and test (commandline -opc)[2] = replay' -F
complete -c sisyn -n 'test (count (commandline -opc)) -eq 3; and test (commandline -opc)[2] = replay' -F
complete -c sisyn -n 'test (count (commandline -opc)) -eq 4; and test (commandline -opc)[2] = replay' -F
complete -c sisyn -n 'test (count (commandline -opc)) -eq 1' -a 'wave' -d 'the same as a Value Change Dump'
complete -c sisyn -n 'test (count (commandline -opc)) -eq 2; and test (commandline -opc)[2] = wave' -F
complete -c sisyn -n 'test (count (commandline -opc)) -eq 3; and test (commandline -opc)[2] = wave' -F
complete -c sisyn -n 'test (count (commandline -opc)) -eq 4; and test (commandline -opc)[2] = wave' -F
complete -c sisyn -n 'test (count (commandline -opc)) -eq 1' -a 'audit' -d 'whether a netlist is certified for a graph'
complete -c sisyn -n 'test (count (commandline -opc)) -eq 2; and test (commandline -opc)[2] = audit' -F
complete -c sisyn -n 'test (count (commandline -opc)) -eq 3; and test (commandline -opc)[2] = audit' -F
complete -c sisyn -n 'test (count (commandline -opc)) -eq 1' -a 'certify' -d 'a netlist with insertions told by its gates'
complete -c sisyn -n 'test (count (commandline -opc)) -eq 2; and test (commandline -opc)[2] = certify' -F
complete -c sisyn -n 'test (count (commandline -opc)) -eq 3; and test (commandline -opc)[2] = certify' -a 'eqn verilog' -F
complete -c sisyn -n 'test (count (commandline -opc)) -eq 4; and test (commandline -opc)[2] = certify' -F
complete -c sisyn -n 'test (count (commandline -opc)) -eq 1' -a 'same' -d 'whether two graphs behave alike'
complete -c sisyn -n 'test (count (commandline -opc)) -eq 2; and test (commandline -opc)[2] = same' -F
complete -c sisyn -n 'test (count (commandline -opc)) -eq 3; and test (commandline -opc)[2] = same' -F
complete -c sisyn -n 'test (count (commandline -opc)) -eq 1' -a 'product' -d 'the graph of cycles that share events'
complete -c sisyn -n 'test (count (commandline -opc)) -eq 2; and test (commandline -opc)[2] = product' -F
complete -c sisyn -n 'test (count (commandline -opc)) -eq 3; and test (commandline -opc)[2] = product' -F
complete -c sisyn -n 'test (count (commandline -opc)) -eq 4; and test (commandline -opc)[2] = product' -F
complete -c sisyn -n 'test (count (commandline -opc)) -eq 5; and test (commandline -opc)[2] = product' -F
complete -c sisyn -n 'test (count (commandline -opc)) -eq 6; and test (commandline -opc)[2] = product' -F
complete -c sisyn -n 'test (count (commandline -opc)) -eq 1' -a 'compose' -d 'the graph of graphs side by side'
complete -c sisyn -n 'test (count (commandline -opc)) -eq 2; and test (commandline -opc)[2] = compose' -F
complete -c sisyn -n 'test (count (commandline -opc)) -eq 3; and test (commandline -opc)[2] = compose' -F
complete -c sisyn -n 'test (count (commandline -opc)) -eq 4; and test (commandline -opc)[2] = compose' -F
complete -c sisyn -n 'test (count (commandline -opc)) -eq 5; and test (commandline -opc)[2] = compose' -F
complete -c sisyn -n 'test (count (commandline -opc)) -eq 6; and test (commandline -opc)[2] = compose' -F
complete -c sisyn -n 'test (count (commandline -opc)) -eq 1' -a 'join' -d 'the netlist of netlists side by side'
complete -c sisyn -n 'test (count (commandline -opc)) -eq 2; and test (commandline -opc)[2] = join' -F
complete -c sisyn -n 'test (count (commandline -opc)) -eq 3; and test (commandline -opc)[2] = join' -F
complete -c sisyn -n 'test (count (commandline -opc)) -eq 4; and test (commandline -opc)[2] = join' -F
complete -c sisyn -n 'test (count (commandline -opc)) -eq 5; and test (commandline -opc)[2] = join' -F
complete -c sisyn -n 'test (count (commandline -opc)) -eq 1' -a 'works' -d 'whether netlists are right together'
complete -c sisyn -n 'test (count (commandline -opc)) -eq 2; and test (commandline -opc)[2] = works' -F
complete -c sisyn -n 'test (count (commandline -opc)) -eq 3; and test (commandline -opc)[2] = works' -F
complete -c sisyn -n 'test (count (commandline -opc)) -eq 4; and test (commandline -opc)[2] = works' -F
complete -c sisyn -n 'test (count (commandline -opc)) -eq 5; and test (commandline -opc)[2] = works' -F
complete -c sisyn -n 'test (count (commandline -opc)) -eq 1' -a 'exercise' -d 'the sizes of N handshakes, from 1 to 8'
complete -c sisyn -n 'test (count (commandline -opc)) -eq 2; and test (commandline -opc)[2] = exercise' -a '1 2 3 4 5 6 7 8'
complete -c sisyn -n 'test (count (commandline -opc)) -eq 1' -a 'help' -d 'what a command writes, and how it may end'
complete -c sisyn -n 'test (count (commandline -opc)) -eq 2; and test (commandline -opc)[2] = help' -a 'check states regions conflicts explain lint covers fold dot synth suggest map resolve insert genlib verilog eqn loops reset replay wave audit certify same product compose join works exercise help --version'
complete -c sisyn -n 'test (count (commandline -opc)) -eq 1' -a '--version' -d 'the version, and what proved it'
