# A row of the table that bench/run prints, out of the variables that it sets: counts are of whole runs, or "-" where nothing
# counts; times are two numbers of nanoseconds, the first of them "none" where the Rust has no such call.

function thousands(n,    left, right) {
    left = sprintf("%.0f", n)
    while (length(left) > 3) {
        right = "," substr(left, length(left) - 2) right
        left = substr(left, 1, length(left) - 3)
    }
    return left right
}

function share(a, b) {
    return b > 0 ? sprintf("%.1f", a / b) : "-"
}

function span(nanoseconds) {
    if (nanoseconds < 1e6) return sprintf("%.1f µs", nanoseconds / 1e3)
    if (nanoseconds < 1e9) return sprintf("%.1f ms", nanoseconds / 1e6)
    return sprintf("%.1f s", nanoseconds / 1e9)
}

BEGIN {
    split(times, time, " ")
    # How much, of what, and how many rows or the like were found.
    split(size, sized, " ")
    given = time[1] != "none"
    counted = none != "-"
    r = counted ? (given ? thousands(rust - none) : "none") : "not measured"
    o = counted ? thousands(ours - none) : "not measured"
    of_count = counted && given ? share(rust - none, ours - none) : "-"
    each = counted ? share(ours - none, sized[1]) : "-"
    printf "| %s | %s | %s %s | %s ", call, input, thousands(sized[1]), sized[2], thousands(sized[3])
    printf "| %s | %s | %s | %s ", r, o, of_count, each
    printf "| %s | %s | %s |\n", given ? span(time[1]) : "none", span(time[2]), given ? share(time[1], time[2]) : "-"
}
