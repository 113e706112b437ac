#!/bin/bash
# Any database by its own command line, as a coprocess: a row of the table `registers` is a register.
#
#     client.sh BEGIN '.print end' sqlite3 FILE
#     client.sh 'BEGIN ISOLATION LEVEL SERIALIZABLE' '\echo end' psql -qAtX ..
#
# The words are what begins a transaction, what prints a line `end`, and the command line.
begin=$1 end=$2
shift 2
coproc DB { exec "$@" 2>&1; }

# Asks, and takes what is answered, up to "end": whether nothing of it is an error.
ask() {
    answer=
    printf '%s;\n%s\n' "$1" "$end" >&"${DB[1]}"
    while read -r line <&"${DB[0]}" && [ "$line" != end ]; do answer+=$line; done
    [[ $answer != *[Ee][Rr][Rr][Oo][Rr]* ]]
}

is_open=false
while read -r thread call register value; do
    [ "$call" = X ] || $is_open || ask "$begin"
    is_open=true reply=A
    case $call in
    R) ask "SELECT v FROM registers WHERE k = $register" && reply="V $answer" ;;
    W) ask "UPDATE registers SET v = $value WHERE k = $register" && reply=K ;;
    T) ask COMMIT && reply=C ;;
    esac
    [ "$reply" != A ] || ask ROLLBACK
    [ "$reply" != A ] && [ "$reply" != C ] || is_open=false
    echo "$thread $reply"
done
