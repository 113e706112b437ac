# shellcheck shell=bash disable=SC2154
# Functions that tests/long/recorders.sh and tests/long/libitm.sh share: test cases with recorded runs that are judged. The scripts source
# this file, and set top, the repository's folder, and runs and rounds, the number of runs of a test case and the number of rounds of a run.

[ -x "$program" ] || "$top/build"
judge=$program

write_head() {
    printf '%-30s %-11s %-11s %7s %7s %9s %7s %7s\n' row opacity strict least most events run judged
    printf '%-30s %-11s %-11s\n' '' 'o v u m' 'o v u m'
}

# Counts the verdict of a report's line in the list that is named: opaque or strict so far, violated, undecided, malformed.
count_verdict() {
    local -n of_each=$1
    case $2 in
    *'"verdict":"opaque so far"}' | *'"verdict":"strict so far"}') of_each[0]=$((of_each[0] + 1)) ;;
    *'"verdict":"violated"}') of_each[1]=$((of_each[1] + 1)) ;;
    *'"verdict":"undecided","why":"transactions"}') of_each[2]=$((of_each[2] + 1)) ;;
    *'"verdict":"malformed"}') of_each[3]=$((of_each[3] + 1)) ;;
    *) echo "$2" >&2 ;;
    esac
}

# Whether all runs have this verdict, by the counts.
all_are() {
    case $1 in
    opaque) [ "$2" -eq "$runs" ] ;;
    violated) [ "$3" -eq "$runs" ] ;;
    undecided) [ "$4" -eq "$runs" ] ;;
    malformed) [ "$5" -eq "$runs" ] ;;
    any) true ;;
    esac
}

# Records and judges the runs of a row: its name, the verdict that each run has to have by opacity and by strict serializability, and the command that writes a
# run's trace, which is given the number of rounds and a seed.
record() {
    local name=$1 wanted=$2 wanted_strict=$3 least=0 most=0 events=0 run=0 judged=0 passes=passed
    local opacity=(0 0 0 0) strict=(0 0 0 0)
    shift 3
    for seed in $(seq "$runs"); do
        local began
        began=$EPOCHREALTIME
        "$@" "$rounds" "$seed" >"$folder/trace" 2>>"$folder/told" || passes=FAILED
        run=$(echo "$run $(since "$began")" | awk '{ printf "%.2f", $1 + $2 }')
        began=$EPOCHREALTIME
        "$judge" judge --criterion both <"$folder/trace" >"$folder/report" || [ $? -lt 4 ] || passes=FAILED
        judged=$(echo "$judged $(since "$began")" | awk '{ printf "%.2f", $1 + $2 }')
        { read -r line && read -r strict_line; } <"$folder/report" || line='' strict_line=''
        count_verdict opacity "$line"
        count_verdict strict "$strict_line"
        events=$((events + $(wc -l <"$folder/trace") - 1))
        [[ $line =~ \"at\":([0-9]+) ]] || continue
        [ "$least" -ne 0 ] && [ "$least" -lt "${BASH_REMATCH[1]}" ] || least=${BASH_REMATCH[1]}
        [ "$most" -gt "${BASH_REMATCH[1]}" ] || most=${BASH_REMATCH[1]}
    done
    all_are "$wanted" "${opacity[@]}" && all_are "$wanted_strict" "${strict[@]}" || passes=FAILED
    row '%-30s %-11s %-11s %7d %7d %9d %7s %7s' "$name" "${opacity[*]}" "${strict[*]}" \
        "$least" "$most" "$events" "$run" "$judged" $passes
}
