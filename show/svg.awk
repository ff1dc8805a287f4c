# The picture of a plan, or of a refusal, as SVG. It stands on table.awk and says.awk and prints nothing by itself:
# print_picture() prints the whole, as a file of its own or inside a page. Every class and id begins with cuddlelamb-, and there
# is no script and no style sheet, so that nothing of it touches the page around it. Shape and lightness tell things apart, for
# paper without colour.

# ---- the layout: all its numbers, in units of the view box, which are pixels where it is not scaled

BEGIN {
    page_width = 960 # with 64 jobs the whole is less than 1.4 times as high, so that it goes on a page of A4
    margin = 20
    huge = 18 # sizes of letters
    large = 13
    medium = 12
    small = 11
    letter_width = 0.6 # of the size, in the fonts below
    fonts = "'DejaVu Sans Mono', 'Liberation Mono', Menlo, Consolas, monospace"
    leading = 7 # between lines of text
    gap = 10 # between parts

    job_right = 84 # the columns, from left to right; numbers end at the right of theirs
    reason_left = 97
    waits_right = 128
    chart_left = 140
    asks_left = 632
    chart_right = 636
    beyond_left = 658
    begins_right = 746
    ends_right = 838
    termination_right = 940

    row_height = 17
    row_letters = 13 # from the top of a row down to the line that letters stand on
    bar_height = 9
    hairline = 1.5 # the least width of a bar
    stretch = 1.5 # how many times the plan's length the time line may have, to show terminations
    mark_height = 13
    mark_arm = 3
    beyond_half = 4
    hatch_step = 5

    arrow_aside = 2.5 # how far above the middle of a bar an arrow comes in, and below it goes out
    arrow_in = 6 # how far behind the beginning of a bar an arrow falls on it
    arrow_around = 9 # how far behind the end of a narrow bar an arrow goes down to it
    arrow_lane = 3 # and how far apart from another that does so
    arrow_lanes = 4
    head_length = 6
    head_half = 3

    swatch_width = 28 # of the legend
    legend_column = 310
    most_letters = 115 # in a line of large letters
    most_of_line = 400 # letters of a refused line
    most_hints = 8

    bar_look = has("fill", "#6d8fb3")
    mark_look = has("fill", "none") has("stroke", "#000") has("stroke-width", "1.6")
    beyond_look = has("fill", "#fff") has("stroke", "#000")
    line_look = has("fill", "none") has("stroke", "#8c2d04") has("stroke-width", "1.2")
    head_look = has("fill", "#8c2d04")
    frame_look = has("fill", "#fff") has("stroke", "#333")
    spent_look = has("fill", "#333")
    hatch_look = has("fill", "none") has("stroke", "#333")
    band_look = has("fill", "#f3f3f3")
    tick_look = has("fill", "none") has("stroke", "#bbb")
    axis_look = has("fill", "none") has("stroke", "#333")
    rule_look = has("fill", "#999")
}

# ---- elements

function escaped(text) {
    gsub(/&/, "\\&amp;", text)
    gsub(/</, "\\&lt;", text)
    gsub(/>/, "\\&gt;", text)
    gsub(/"/, "\\&quot;", text)
    return text
}

# a length, to a tenth of a unit
function units(x) {
    x = sprintf("%.1f", x)
    sub(/\.0$/, "", x)
    return x
}

function point(x, y) { return units(x) " " units(y) }
function has(name, value) { return " " name "=\"" value "\"" }
function kind(name) { return has("class", "cuddlelamb-" name) }
function element(name, attributes, content) { return "<" name attributes (content == "" ? "/>" : ">" content "</" name ">") }
function title(said) { return said == "" ? "" : element("title", "", escaped(said)) }

# What is drawn is kept, for the height of the whole, which is printed first, is known last.
function draw(what) { drawn[++drawn_count] = what }

function draw_box(name, x, y, width, height, look, said,    sizes) {
    sizes = has("x", units(x)) has("y", units(y)) has("width", units(width)) has("height", units(height))
    draw(element("rect", kind(name) sizes look, title(said)))
}

function draw_path(name, steps, look, said) { draw(element("path", kind(name) has("d", steps) look, title(said))) }

function draw_text(name, x, y, size, words, anchor) {
    draw(element("text", kind(name) has("x", units(x)) has("y", units(y)) has("font-size", size) anchor, escaped(words)))
}

function text_from(name, x, y, size, words) { draw_text(name, x, y, size, words) }
function text_to(name, x, y, size, words) { draw_text(name, x, y, size, words, has("text-anchor", "end")) }
function text_around(name, x, y, size, words) { draw_text(name, x, y, size, words, has("text-anchor", "middle")) }

# a line of text by itself, below what is drawn so far
function text_below(name, x, size, words) {
    text_from(name, x, down + size, size, words)
    down += size + leading
}

# how many letters of a text go into a line of most: up to a space, or up to a byte that is shown in brackets
function letters_that_fit(text, most,    at) {
    if (length(text) <= most) return length(text)
    for (at = most; at > most / 2; at--)
        if (substr(text, at, 1) == " " || substr(text, at + 1, 1) == "<") return at
    return most
}

function wrapped_below(name, x, text,    fit) {
    while (text != "") {
        fit = letters_that_fit(text, most_letters)
        text_below(name, x, large, substr(text, 1, fit))
        text = substr(text, fit + 1)
    }
}

# ---- shapes with a meaning; the legend shows the same ones

function bar_top(top) { return top + (row_height - bar_height) / 2 }
function draw_bar(name, x, top, width, said) { draw_box(name, x, bar_top(top), width, bar_height, bar_look, said) }
function draw_frame(name, x, top, width, said) { draw_box(name, x, bar_top(top), width, bar_height, frame_look, said) }
function draw_spent(name, x, top, width, said) { draw_box(name, x, bar_top(top), width, bar_height, spent_look, said) }

function draw_hatched(name, x, top, width, said) {
    draw_frame(name, x, top, width, said)
    draw_path("hatch", hatching(x, bar_top(top), width, bar_height), hatch_look)
}

# slanting lines in a box, cut at its sides
function hatching(x, y, width, height,    at, first, last, steps) {
    for (at = hatch_step - height; at < width; at += hatch_step) {
        first = at < 0 ? -at : 0
        last = at + height > width ? width - at : height
        steps = steps "M" point(x + at + first, y + height - first) "L" point(x + at + last, y + height - last)
    }
    return steps
}

# a termination: a wall that what runs on its left does not pass
function draw_mark(name, x, top, said,    y) {
    y = top + (row_height - mark_height) / 2
    draw_path(name, "M" point(x - mark_arm, y) "H" units(x) "V" units(y + mark_height) "H" units(x - mark_arm), mark_look, said)
}

# a termination that is further to the right than the time line goes
function draw_beyond(name, x, top, said,    y, corner) {
    y = top + row_height / 2
    corner = "L" point(x + head_length, y)
    draw_path(name, "M" point(x, y - beyond_half) corner "L" point(x, y + beyond_half) "Z", beyond_look, said)
}

# A line along the steps, then a head whose point is at x, y. It comes from the side that the two signs tell: -1 and 0 are from
# the left, 1 and 0 from the right, 0 and -1 from above.
function draw_arrow(name, steps, x, y, from_x, from_y, said,    base_x, base_y, across_x, across_y, corners) {
    base_x = x + from_x * head_length
    base_y = y + from_y * head_length
    across_x = from_y * head_half
    across_y = from_x * head_half
    corners = "L" point(base_x + across_x, base_y + across_y) "L" point(base_x - across_x, base_y - across_y)
    draw("<g" kind(name) ">" title(said))
    draw_path("line", steps "L" point(base_x, base_y), line_look)
    draw_path("head", "M" point(x, y) corners "Z", head_look)
    draw("</g>")
}

# ---- the budget

function at_least_hairline(width) { return width < hairline ? hairline : width }
function share(part) { return budget > 0 ? at_least_hairline(part / budget * (chart_right - chart_left)) : 0 }

function spends(spent, cost) { return "the plan spends " spent " units " cost }

# a row with the frame that stands for the budget; what is spent of it comes into the frame
function draw_spending(spent, cost) {
    text_to("cost", waits_right, down + row_letters, large, cost)
    text_to("units", termination_right, down + row_letters, large, spent " units")
    draw_frame("budget", chart_left, down, chart_right - chart_left, budget_said())
}

function draw_budget(    cost, top) {
    text_below("summary", margin, large, budget_said() "; spent of it:")
    cost = "at " speed " MHz"
    draw_spending(energy, cost)
    if (energy > 0) draw_spent("spent", chart_left, down, share(energy), spends(energy, cost))
    down += row_height
    top = whole(at_top_cost)
    draw_spending(top, "at top cost")
    if (at_top_cost > 0) draw_hatched("top", chart_left, down, share(at_top_cost), spends(top, "at top cost"))
    down += row_height
}

# ---- the time line

# It runs from now to the end of the plan, and on to the last termination that leaves the bars readable.
function find_axis_end(    at, furthest, time) {
    axis_end = finish[order[place]] + 0
    if (axis_end <= now + 0) axis_end = now + 1
    furthest = now + (axis_end - now) * stretch
    for (at = 1; at <= place; at++) {
        time = termination[order[at]] + 0
        if (time > axis_end && time <= furthest) axis_end = time
    }
}

function time_x(time) { return chart_left + (time - now) * (chart_right - chart_left) / (axis_end - now) }

# the round number of ms from one tick to the next: at most 5 of them go into the span
function tick_step(span,    power) {
    for (power = 1; ; power *= 10) {
        if (span <= 5 * power) return power
        if (span <= 10 * power) return 2 * power
        if (span <= 25 * power) return 5 * power
    }
}

# a tick's number stands in the middle over its line, except at the left, where it would stand over the columns there
function draw_tick(time, bottom,    x, half) {
    x = time_x(time)
    half = length(whole(time)) * small * letter_width / 2
    draw_path("tick", "M" point(x, rows_top) "V" units(bottom), tick_look)
    text_around("time", x < chart_left + half ? chart_left + half : x, rows_top - leading / 2, small, whole(time))
}

function draw_time_line(    step, time, bottom) {
    bottom = rows_top + place * row_height
    step = tick_step(axis_end - now)
    for (time = int((now + step - 1) / step) * step; time <= axis_end; time += step) draw_tick(time, bottom)
    draw_path("axis", "M" point(chart_left, bottom) "V" units(rows_top) "H" units(chart_right), axis_look)
}

# ---- the jobs that are planned

function draw_headings(    y) {
    y = down + small
    text_to("heading", job_right, y, small, "job")
    text_to("heading", waits_right, y, small, "waits")
    text_to("heading", waits_right, y + small + leading / 2, small, "for")
    text_from("heading", chart_left, y, small, "time in ms, beginning now, at " now)
    text_to("heading", begins_right, y, small, "begins")
    text_to("heading", ends_right, y, small, "ends")
    text_to("heading", termination_right, y, small, "termination")
    down += 2 * small + leading
}

# every other row has a band behind it, for the eye
function draw_band(at, top) {
    if (at % 2) draw_box("band", margin, top, page_width - 2 * margin, row_height, band_look)
}

function row_top(at) { return rows_top + (at - 1) * row_height }
function runs(at) { return "job " order[at] " runs from " beginning(at) " to " finish[order[at]] " ms" }
function ends_by(job) { return "the termination of job " job " is at " termination[job] " ms" }
function waits(job) { return "job " job " waits for job " waits_for(job) }

function draw_numbers(at, job,    y) {
    y = row_top(at) + row_letters
    text_to("job", job_right, y, large, "job " job)
    if (waits_for(job) != "") text_to("waits", waits_right, y, large, waits_for(job))
    text_to("begins", begins_right, y, large, beginning(at))
    text_to("ends", ends_right, y, large, finish[job])
    text_to("termination", termination_right, y, large, termination[job])
}

# A row. The bar comes over its mark, which would cover a narrow one; where it stands is kept for the arrows.
function draw_job(at, job) {
    place_of[job] = at
    bar_left[at] = time_x(beginning(at))
    bar_right[at] = bar_left[at] + at_least_hairline(time_x(finish[job]) - bar_left[at])
    draw_numbers(at, job)
    if (termination[job] + 0 > axis_end) draw_beyond("beyond", beyond_left, row_top(at), ends_by(job))
    else draw_mark("mark", time_x(termination[job]), row_top(at), ends_by(job))
    draw_bar("bar", bar_left[at], row_top(at), bar_right[at] - bar_left[at], runs(at))
}

# whether a line that goes down at x would run along another, of an arrow from another bar
function is_taken(x, from, to,    i, apart) {
    for (i = 1; i <= wait_count; i++) {
        apart = x < wait_x[i] ? wait_x[i] - x : x - wait_x[i]
        if (apart < arrow_lane && wait_from[i] != from && wait_from[i] < to && from < wait_to[i]) return 1
    }
    return 0
}

function free_lane(x, from, to,    lane) {
    for (lane = 1; lane < arrow_lanes && is_taken(x, from, to); lane++) x += arrow_lane
    return x
}

# An arrow leaves the end of a bar, to the right, and falls on the beginning of one below. All bars in between end before that, so
# that it meets none of them. To a bar that is too narrow for it to fall on, it comes from the right.
function draw_wait(from, to, said,    steps, x, y, width) {
    steps = "M" point(bar_right[from], row_top(from) + row_height / 2 + arrow_aside)
    width = bar_right[to] - bar_left[to]
    if (width >= 2 * head_half) {
        x = bar_left[to] + (width < 2 * arrow_in ? width / 2 : arrow_in)
        draw_arrow("arrow", steps "H" units(x), x, bar_top(row_top(to)), 0, -1, said)
    } else {
        x = free_lane(bar_right[to] + arrow_around, from, to)
        y = row_top(to) + row_height / 2 - arrow_aside
        draw_arrow("arrow", steps "H" units(x) "V" units(y), bar_right[to], y, 1, 0, said)
    }
    wait_from[++wait_count] = from
    wait_to[wait_count] = to
    wait_x[wait_count] = x
}

function draw_planned(    at) {
    down += gap
    draw_headings()
    rows_top = down
    find_axis_end()
    for (at = 1; at <= place; at++) draw_band(at, row_top(at))
    draw_time_line()
    for (at = 1; at <= place; at++) draw_job(at, order[at])
    for (at = 1; at <= place; at++)
        if (waits_for(order[at]) != "") draw_wait(place_of[waits_for(order[at])], at, waits(order[at]))
    down += place * row_height
}

# ---- the jobs that are not

function why(job) { return reason(fate[job]) " (" fate[job] ")" }
function asked(job) { return request[job] == "0" ? "" : holder[request[job]] }
function asks(job) { return "asks for what job " asked(job) " holds" }

function draw_unplanned_job(at, job,    y) {
    y = down + row_letters
    draw_band(at, down)
    text_to("job", job_right, y, large, "job " job)
    text_from("reason", reason_left, y, medium, why(job))
    if (asked(job) != "") text_from("asks", asks_left, y, medium, asks(job))
    text_to("termination", termination_right, y, large, termination[job])
    down += row_height
}

function draw_unplanned(    i, at) {
    if (jobs == place) return
    down += gap
    text_to("heading", job_right, down + small, small, "job")
    text_from("heading", reason_left, down + small, small, "why it is not planned, with the number of its fate")
    text_to("heading", termination_right, down + small, small, "termination")
    down += small + leading
    for (i = 1; i <= jobs; i++) if (fate[number[i]] != 1) draw_unplanned_job(++at, number[i])
}

# ---- the legend

function legend_left(entry) { return margin + int((entry - 1) / 2) * legend_column }
function legend_top(entry) { return down + ((entry - 1) % 2) * row_height }

function draw_legend_words(entry, words) {
    text_from("legend", legend_left(entry) + swatch_width + gap, legend_top(entry) + row_letters, small, words)
}

function draw_legend(    middle) {
    down += gap
    middle = swatch_width / 2
    draw_bar("legend", legend_left(1), legend_top(1), swatch_width)
    draw_legend_words(1, "a job runs")
    draw_arrow("legend", "M" point(legend_left(2), legend_top(2) + row_height / 2),
        legend_left(2) + swatch_width, legend_top(2) + row_height / 2, -1, 0)
    draw_legend_words(2, "from a job to one that waits for it")
    draw_mark("legend", legend_left(3) + middle, legend_top(3))
    draw_legend_words(3, "its termination: it ends by then")
    draw_beyond("legend", legend_left(4) + middle - head_length / 2, legend_top(4))
    draw_legend_words(4, "its termination, further to the right")
    draw_frame("legend", legend_left(5), legend_top(5), swatch_width)
    draw_spent("legend", legend_left(5), legend_top(5), middle)
    draw_legend_words(5, "spent of the budget, at " speed " MHz")
    draw_frame("legend", legend_left(6), legend_top(6), swatch_width)
    draw_hatched("legend", legend_left(6), legend_top(6), middle)
    draw_legend_words(6, "spent of the budget, at top cost")
    down += 2 * row_height
}

# ---- the whole

function headline(    left) {
    if (refusal != "") return ENVIRON["BUDGET_REFUSED"] == "" ? "The table is refused" : "The budget is refused"
    left = jobs - place
    return jobs_said(planned) (left == 0 ? "" : left == 1 ? ", 1 is not" : ", " left " are not")
}

function summary(    begun) {
    begun = "at " speed " MHz, for " energy " units; now is " now " ms"
    if (jobs == 0) return begun "; the table has no jobs"
    if (place == 0) return begun "; there is no time line, for no job is planned"
    return begun ", the last job ends at " finish[order[place]] " ms"
}

function draw_plan() {
    text_to("note", page_width - margin, down + small, small, "times in ms, rounded up to whole ms")
    text_below("headline", margin, huge, headline())
    text_below("summary", margin, large, summary())
    draw_budget()
    if (place > 0) draw_planned()
    draw_unplanned()
    if (place > 0) draw_legend()
}

# with a rule at its left, which tells it from the words around it
function draw_refused_line(    top) {
    down += leading / 2
    top = down
    wrapped_below("refused", margin + gap, shown_line(refused_line, most_of_line))
    draw_box("rule", margin, top, leading / 2, down - top - leading / 2, rule_look)
    down += leading / 2
}

function draw_refusal(    i) {
    text_below("headline", margin, huge, headline())
    wrapped_below("said", margin, refusal_said())
    if (line_to_show()) draw_refused_line()
    for (i = 1; i <= hint_count && i <= most_hints; i++) wrapped_below("hint", margin, "hint: " hints[i])
    if (hint_count > most_hints) wrapped_below("hint", margin, "hints that are not shown: " (hint_count - most_hints))
}

# the same in words, for who does not see it
function print_plan_said(    at, i) {
    print escaped(summary() "; " budget_said() "; " spends(whole(at_top_cost), "at top cost") ".")
    for (at = 1; at <= place; at++) print escaped(runs(at) "; " ends_by(order[at]) also_waits(order[at]) ".")
    for (i = 1; i <= jobs; i++)
        if (fate[number[i]] != 1) print escaped("job " number[i] " is not planned: " why(number[i]) also_asks(number[i]) ".")
}

function also_waits(job) { return waits_for(job) == "" ? "" : "; " waits(job) }
function also_asks(job) { return asked(job) == "" ? "" : "; it " asks(job) }

function print_refusal_said(    i) {
    print escaped(refusal_said() ".")
    if (line_to_show()) print escaped(shown_line(refused_line, most_of_line))
    for (i = 1; i <= hint_count && i <= most_hints; i++) print escaped("hint: " hints[i] ".")
}

function print_opening(    height) {
    height = units(down)
    print "<svg" has("xmlns", "http://www.w3.org/2000/svg") kind("picture") has("viewBox", "0 0 " page_width " " height) \
        has("width", page_width) has("height", height) has("style", "max-width: 100%; height: auto") has("role", "img") \
        has("aria-labelledby", "cuddlelamb-title") has("aria-describedby", "cuddlelamb-desc") has("font-family", fonts) ">"
    print element("title", has("id", "cuddlelamb-title"), escaped(headline()))
    print "<desc" has("id", "cuddlelamb-desc") ">"
    if (refusal != "") print_refusal_said()
    else print_plan_said()
    print "</desc>"
    print "<rect" kind("paper") has("width", page_width) has("height", height) has("fill", "#fff") "/>"
}

function print_picture(    i) {
    down = margin
    if (refusal != "") draw_refusal()
    else draw_plan()
    down += margin
    print_opening()
    for (i = 1; i <= drawn_count; i++) print drawn[i]
    print "</svg>"
}
