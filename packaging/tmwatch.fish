# Completion for tmwatch in fish. tests/package.sh compares its options with those of `tmwatch COMMAND --help`.
complete -c tmwatch -f
complete -c tmwatch -s h -l help -d 'Print help'
complete -c tmwatch -n __fish_use_subcommand -s V -l version -d 'Print version'
complete -c tmwatch -n __fish_use_subcommand -a judge -d 'Check a trace for opacity or strict serializability'
complete -c tmwatch -n __fish_use_subcommand -a show -d 'Check a trace, and draw the window in which it went wrong'
complete -c tmwatch -n __fish_use_subcommand -a drive -d 'Run a workload on a built-in memory in one thread, and check the run'
complete -c tmwatch -n __fish_use_subcommand -a bench -d 'Run a workload on a built-in memory in threads, and check the run'
complete -c tmwatch -n __fish_use_subcommand -a steps -d 'Run the lock-free ring step by step'

set -l judged '__fish_seen_subcommand_from judge show drive bench'
complete -c tmwatch -n $judged -l window -x -d 'Most transactions per window, 1 to 8'
complete -c tmwatch -n $judged -l states -x -d 'Most states at a cut, 1 to 64'
set -l counted '__fish_seen_subcommand_from judge drive bench'
complete -c tmwatch -n $counted -l summary -d 'Also count transactions, overlaps and cuts'

set -l judge '__fish_seen_subcommand_from judge'
complete -c tmwatch -n $judge -l criterion -x -a 'opacity strict both' -d 'opacity, strict or both'
complete -c tmwatch -n $judge -l first -d 'Stop reading once the verdict is final'

set -l show '__fish_seen_subcommand_from show'
complete -c tmwatch -n $show -l criterion -x -a 'opacity strict' -d 'opacity or strict'
complete -c tmwatch -n $show -l trace -d 'Print the window as traces instead'
complete -c tmwatch -n $show -l page -d 'Print an HTML page instead'
complete -c tmwatch -n $show -l why -d 'Show only events that matter, and say why'
complete -c tmwatch -n $show -l skipped -x -d 'Events before the trace, 0 to 10^15'

set -l run '__fish_seen_subcommand_from drive bench'
complete -c tmwatch -n $run -l memory -x -a 'norec lock torn' -d 'norec, lock or torn (has a bug)'
complete -c tmwatch -n $run -l trace -d 'Print the trace before the report'
complete -c tmwatch -n $run -l trace-only -d 'Print only the trace'

set -l bench '__fish_seen_subcommand_from bench'
complete -c tmwatch -n $bench -l show -d 'Print what `show` prints instead of the report'
complete -c tmwatch -n $bench -l why -d 'Show only events that matter, and say why'
complete -c tmwatch -n $bench -l quiet -d 'Do not show progress on a terminal'
complete -c tmwatch -n $bench -l ring -x -d 'Ring cells, one per script to 4096'
complete -c tmwatch -n $bench -l patience -x -d 'Tries on a full ring, 1 to 10^9'
complete -c tmwatch -n $bench -l rounds -x -d 'Times to run the workload, 1 to 10^9'
