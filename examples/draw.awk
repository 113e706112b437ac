# Draws a whole trace: its events, each with its number, in a column for each thread. `tmwatch show` draws the last window alone.
#
#   awk -f examples/draw.awk examples/long_fork.trace
#
# `opacity` and `strict` are the lengths at which the criterion was violated, if it was.

function blanks(number) {
    return number > 0 ? " " blanks(number - 1) : ""
}

# What the line of an event tells beside it.
function told(event, by) {
    by = event == opacity ? (event == strict ? "both" : "opacity") : event == strict ? "strict serializability" : ""
    return by == "" ? "" : "violates " by
}

NR == 1 { next }

# A transaction has its name before its first event. They are counted anew once none is open, as in the last window.
{
    number = NR - 1
    thread[number] = substr($0, 1, 1) + 0
    text[number] = substr($0, 3)
    if (!(thread[number] in open)) {
        if (length(open) == 0)
            count = 0
        open[thread[number]]
        text[number] = "T" ++count " " text[number]
    } else
        text[number] = "   " text[number]
    if ($2 == "C" || $2 == "A")
        delete open[thread[number]]
    if (thread[number] > last)
        last = thread[number]
}

END {
    head = "    event"
    for (t = 0; t <= last; t++)
        head = head "  thread " t (t < last ? "     " : "")
    print head
    for (i = 1; i < NR; i++) {
        line = sprintf("%9d", i) blanks(15 * thread[i] + 2) text[i]
        print line (told(i) == "" ? "" : blanks(length(head) + 2 - length(line)) told(i))
    }
}
