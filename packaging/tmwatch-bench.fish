# Completion for tmwatch-bench in fish: the options that `tmwatch-bench --help` lists. Files follow after --.
set -l before 'not contains -- -- (commandline -opc)'
complete -c tmwatch-bench -n $before -f -a '(tmwatch-bench --help | string replace -rf "^  (--[a-z-]+)(, --version)? +(.*)" "\$1\t\$3")'
complete -c tmwatch-bench -n $before -f -a --version
complete -c tmwatch-bench -n '__fish_prev_arg_in --schedule' -f -a 'steps rounds permits all'
complete -c tmwatch-bench -n '__fish_prev_arg_in --values' -f -a 'small wide'
