# Prints the completions that zsh offers for a line, one on each line: zsh -f tests/offered.zsh FOLDER LINE
#
# FOLDER has the completions. LINE is typed into another zsh, whose `compadd` writes its arguments to a file.
zmodload zsh/zpty || exit 1
offered=$(mktemp -d) || exit 1
trap 'rm -rf $offered' EXIT
export FOLDER=$1 OFFERED=$offered
cat >$offered/begin <<'END'
PS1= fpath=($FOLDER $fpath)
autoload -Uz compinit && compinit -D -u
compadd() {
    local -a hits
    if [[ ${@[1,(i)(-|--)]} != *-(O|A|D)\ * ]]; then
        builtin compadd -A hits "$@"
        print -rl -- $hits >>$OFFERED/hits
    fi
    builtin compadd "$@"
}
zle-line-init() { : >$OFFERED/ready }
zle -N zle-line-init
END

# Waits half a minute at most until the other zsh has made this file.
await() {
    local tenth
    for ((tenth = 0; tenth < 300; tenth++)); do
        [[ ! -e $offered/$1 ]] || return 0
        sleep 0.1
    done
    exit 1
}

zpty typed zsh -f -i
zpty -w typed ". $offered/begin"
await ready
zpty -w -n typed "$2"$'\t\x15'": >$offered/end"$'\n'
await end
[[ ! -e $offered/hits ]] || cat $offered/hits
zpty -d typed
