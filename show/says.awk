# The words of a fate and of a refusal, a line of the table with every odd byte made visible, and what may be wrong with it.

# why a job is not planned, for the fates 2 to 6
function reason(fate) {
    if (fate == 2) return "even if it ran first, at top speed, it would end late"
    if (fate == 3) return "it was taken from a ring of jobs that wait for each other"
    if (fate == 4) return "its chain gives nothing: no member of it has worth and ends in time"
    if (fate == 5) return "with it some job would have ended late"
    if (fate == 6) return "with it the plan would have gone over the budget"
}

# what is wrong with a refused line, for the refusals 1 to 7, which a table can have
function fault(refusal, line) {
    if (refusal == 1) return "it has not the shape of a T, F, J or H line"
    if (refusal == 2) return "a number is outside its range"
    if (refusal == 3 && line > lines) return "the text ends before an F line"
    if (refusal == 3) return "it may not stand here, or its first number does not rise"
    if (refusal == 4) return "it is the 17th F line or the 65th J line"
    if (refusal == 5) return "critical is after termination"
    if (refusal == 6) return "it names a job that is not in the table"
    if (refusal == 7) return "the job requests the resource that it holds"
}

# A refusal of a budget beside the table names line 1, where a table has its own.
function refusal_said() {
    if (ENVIRON["BUDGET_REFUSED"] != "")
        return "line " refused_line ": the budget " ENVIRON["BUDGET"] ", named beside the table, whose own is " own_budget \
            " units, is outside its range (" refusal ")"
    return "line " refused_line ": " fault(refusal, refused_line) " (" refusal ")"
}

# what is told of a job that is not planned
function unplanned_said(job) { return "job " job " is not planned: " reason(fate[job]) " (" fate[job] ")" }

# which budget was planned with, and the table's own where that is another
function budget_said() {
    if (ENVIRON["BUDGET"] == "") return "the budget is " budget " units"
    return "the budget is " budget " units, named beside the table, whose own is " own_budget " units"
}

# the first sentence of a plan
function plan_said() { return jobs_said(planned) ", at " speed " MHz, for " energy " units; " budget_said() }

function jobs_said(count) { return count == 1 ? "1 job is planned" : count " jobs are planned" }

# a byte as a reader sees it
function visible(byte) {
    if (byte == 9) return "<tab>"
    if (byte == 10) return "<LF>"
    if (byte == 13) return "<CR>"
    if (byte == 32) return "<space>"
    if (byte > 32 && byte < 127 && byte != 60) return sprintf("%c", byte)
    return sprintf("<%02X>", byte)
}

# a line whole, for the hints
function visible_line(line,    byte, count, i, shown) {
    count = split(line_bytes[line], byte, " ")
    for (i = 1; i <= count; i++) shown = shown visible(byte[i] + 0)
    return shown
}

# a line to print, cut so that it takes most characters at most
function shown_line(line, most,    byte, count, i, shown, kept, more) {
    count = split(line_bytes[line], byte, " ")
    for (i = 1; i <= count; i++) {
        more = " and " (count - i + 1) " bytes more"
        if (length(shown more) <= most) kept = shown more
        shown = shown visible(byte[i] + 0)
    }
    return length(shown) <= most ? shown : kept
}

# a line to show beside a refusal: that of the table which it names, if there is one
function line_to_show() {
    return refusal != "" && ENVIRON["BUDGET_REFUSED"] == "" && refused_line >= 1 && refused_line <= lines
}

function hint(text) { hints[++hint_count] = text }

# what the letter of a line wants behind it, or 0 where it is none
function fields_wanted(letter) { return letter == "J" ? 6 : letter ~ /^[TFH]$/ ? 2 : 0 }

function hints_about_fields(shown,    field, count, i, letter) {
    sub(/(<CR>)?(<LF>)?$/, "", shown)
    count = split(shown, field, "<tab>") - 1
    letter = field[1]
    if (shown == "") {
        hint("the line is empty; a table has no empty line, at its end neither")
        return
    }
    if (letter ~ /^[tfjh]$/) hint("the letter is a capital: T, F, J or H")
    else if (!fields_wanted(letter)) hint("a line begins with T, F, J or H and a tab")
    else if (count != fields_wanted(letter))
        hint("there are " fields_wanted(letter) " fields behind " letter ", each after one tab; here: " count)
    for (i = 1; i <= count && i <= 6; i++) hint_about_field(i, field[i + 1])
}

function hint_about_field(at, field) {
    if (field == "") hint("field " at " is empty: two tabs side by side, or a tab at the end of the line")
    else if (field ~ /^0[0-9]+$/) hint("field " at " has a leading zero; write it without")
    else if (field !~ /^[0-9]+$/) hint("field " at " is no number: digits alone, no sign, no point")
    else if (length(field) > 16) hint("field " at " has more than 16 digits")
}

# What people do wrong, told by the line of a refusal 1.
function find_hints(line,    shown) {
    shown = visible_line(line)
    if (line == 1 && shown ~ /^<EF><BB><BF>/) hint("the text begins with a byte order mark; save it as plain text, without one")
    if (shown ~ /<00>/) hint("there are bytes 00, as in UTF-16 or in a binary file; save the table as plain text")
    if (shown ~ /<CR><LF>$/) hint("the line ends with CR and LF, as on Windows; a line of a table ends with LF alone")
    else if (shown ~ /<CR>/) hint("there is a CR, which some programs write for a line end; a line of a table ends with LF alone")
    if (shown ~ /<space>/) hint("there are spaces; fields are parted by one tab, and nothing else stands in a line")
    if (shown ~ /[0-9](,|\.|'|_|<A0>|<C2><A0>|<E2><80><AF>|<E2><80><99>)[0-9][0-9][0-9]/ ||
        shown ~ /<tab>[0-9]+<space>[0-9][0-9][0-9]/)
        hint("a number may have a thousands separator; write 1000000, not 1,000,000")
    if (shown !~ /<LF>$/ && byte_count >= 4096) hint("only the first 4096 bytes are read; a table has at most 3653")
    else if (shown !~ /<LF>$/) hint("the last line has no line feed at its end")
    hints_about_fields(shown)
}

# Prints words behind a margin, in lines of width characters at most; a word that is longer has a line of its own. The lines
# behind the first are indented.
function print_filled(margin, text, width,    word, count, i, line) {
    count = split(text, word, " ")
    line = margin word[1]
    for (i = 2; i <= count; i++) {
        if (length(line " " word[i]) > width) {
            print line
            line = margin "    " word[i]
        } else {
            line = line " " word[i]
        }
    }
    print line
}

# Prints a refusal, the line of the table that it names, and what may be wrong with it.
function print_refusal(width,    i) {
    print_filled("", refusal_said(), width)
    if (line_to_show()) print "    " shown_line(refused_line, width - 4)
    for (i = 1; i <= hint_count; i++) print_filled("    ", "hint: " hints[i], width)
}

END { if (refusal == 1 && line_to_show()) find_hints(refused_line) }
