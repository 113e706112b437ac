# Completion for tmwatch in bash. tests/package.sh compares its options with those of `tmwatch COMMAND --help`.

# Offers those of these words that begin as the one under the cursor does.
_tmwatch_offer() {
    mapfile -t COMPREPLY < <(compgen -W "$1" -- "$word")
}

_tmwatch() {
    local word=$2 before=$3 command='' options='' given
    COMPREPLY=()
    # --criterion=strict is three words here.
    if [ "$word" = = ]; then
        word=''
    elif [ "$before" = = ]; then
        before=${COMP_WORDS[COMP_CWORD - 2]}
    fi
    [ "$COMP_CWORD" -eq 1 ] || command=${COMP_WORDS[1]}
    case $command in
    '')
        _tmwatch_offer 'judge show drive bench steps --help --version'
        return
        ;;
    judge) options='--criterion --summary --first --window --states' ;;
    show) options='--criterion --trace --page --why --skipped --window --states' ;;
    drive) options='--memory --trace --trace-only --summary --window --states' ;;
    bench) options='--memory --trace --trace-only --summary --show --why --quiet --ring --patience --rounds --window --states' ;;
    steps) ;;
    *) return ;;
    esac
    case $before in
    --criterion)
        options='opacity strict'
        [ "$command" = show ] || options+=' both'
        _tmwatch_offer "$options"
        ;;
    --memory) _tmwatch_offer 'norec lock torn' ;;
    --skipped | --window | --states | --ring | --patience | --rounds) ;;
    *)
        # An option is given once.
        options=" $options --help "
        for given in "${COMP_WORDS[@]:2:COMP_CWORD-2}"; do
            options=${options/ "$given" / }
        done
        _tmwatch_offer "$options"
        ;;
    esac
}

complete -F _tmwatch tmwatch
