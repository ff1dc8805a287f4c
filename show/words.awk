# Prints a plan as a tester reads it, or a refusal, each number beside its words.

function print_plan(    at, i) {
    print plan_said()
    if (place > 0) print "times are whole ms, rounded up"
    for (at = 1; at <= place; at++) print at ". job " order[at] " runs from " beginning(at) " to " finish[order[at]] " ms"
    for (i = 1; i <= jobs; i++) if (fate[number[i]] != 1) print unplanned_said(number[i])
}

END {
    if (refusal != "") print_refusal(200)
    else print_plan()
}
