# Prints a plan as a time line of characters, as wide as WIDTH of the environment says, or a refusal. A line for each planned
# job: its bar, its termination, and both in numbers; then the jobs that are not planned.

# The time line ends where the last job does, or later where that shows a termination and the bars stay long enough to read.
function find_span(    at, last, latest, job) {
    last = latest = place == 0 ? now : finish[order[place]]
    for (at = 1; at <= place; at++) {
        job = order[at]
        if (termination[job] - now <= 1.5 * (last - now) && termination[job] + 0 > latest + 0) latest = termination[job]
    }
    span_end = latest
    span = greater(latest - now, 1)
}

# The columns beside the bars are as wide as what stands in them.
function find_columns(    at, job) {
    for (at = 1; at <= place; at++) {
        job = order[at]
        label_width = greater(label_width, length("job " job))
        told_width = greater(told_width, length(told(job)))
    }
    cells = width - label_width - told_width - 4
}

function greater(a, b) { return a > b ? a : b }

function told(job) { return finish[job] " ms, by " termination[job] }

function repeated(character, count,    text) {
    while (count-- > 0) text = text character
    return text
}

# how many cells of the time line stand before a time
function cells_before(time,    count) {
    count = int((time - now) * cells / span)
    return count < 0 ? 0 : count > cells ? cells : count
}

# A bar has one cell at least. The mark stands behind it, for no planned job ends after its termination.
function bar_line(at,    job, from, to, mark, beyond) {
    job = order[at]
    from = cells_before(beginning(at))
    to = cells_before(finish[job])
    if (from >= cells) from = cells - 1
    if (to <= from) to = from + 1
    beyond = termination[job] + 0 > span_end + 0
    mark = beyond ? cells : greater(cells_before(termination[job]), to)
    return sprintf("%-" label_width "s ", "job " job) repeated(" ", from) repeated("=", to - from) repeated(" ", mark - to) \
        (beyond ? ">" : "|") repeated(" ", cells - mark + 2) told(job)
}

function print_axis() {
    printf "%-" label_width "s %s%" (cells - length(now)) "s\n", "ms", now, span_end
}

function print_plan(    at, i) {
    print_filled("", plan_said(), width)
    find_span()
    find_columns()
    if (place > 0) print_axis()
    for (at = 1; at <= place; at++) print bar_line(at)
    if (place > 0) print_filled("", "= runs, | termination, > a termination behind the end of the line; whole ms, rounded up", width)
    for (i = 1; i <= jobs; i++) if (fate[number[i]] != 1) print_filled("", unplanned_said(number[i]), width)
}

END {
    width = greater(ENVIRON["WIDTH"] + 0, 60) # so that two times of ten digits stand apart on the axis
    if (refusal != "") print_refusal(width)
    else print_plan()
}
