# Completion for tmwatch-bench in bash: the options that `tmwatch-bench --help` lists. Files follow after --.

_tmwatch_bench() {
    local word=$2 before=$3 helped options given
    COMPREPLY=()
    for given in "${COMP_WORDS[@]:1:COMP_CWORD-1}"; do
        [ "$given" != -- ] || return
    done
    helped=$("$1" --help 2>/dev/null)
    case $before in
    --schedule) options='steps rounds permits all' ;;
    --values) options='small wide' ;;
    *)
        # An option that takes something has no list of it.
        ! grep -qE -- "^  $before +([A-Z]+|[0-9]+-[0-9]+) " <<<"$helped" || return
        options=$(grep -oE -- '^ *--[a-z-]+(, --version)?' <<<"$helped" | tr -d ,)
        options+=' --'
        ;;
    esac
    mapfile -t COMPREPLY < <(compgen -W "$options" -- "$word")
}

complete -o default -F _tmwatch_bench tmwatch-bench
