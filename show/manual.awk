# Prints the manual page as plain text of at most 80 columns: awk -f show/manual.awk docs/cuddlelamb.1
# It knows the macros TH SH TP PP RS RE nf fi br B I BR, the fonts and dashes \fB \fI \fR \- \(em, and comments: what that page
# uses. For anything else it ends with status 1, so that nothing of a page is lost unseen.

function spaces(count) { return sprintf("%" count "s", "") }

# text without its marks; an escape that is left over is none of ours
function plain(text) {
    gsub(/\\f[BIR]/, "", text)
    gsub(/\\-/, "-", text)
    gsub(/\\\(em/, "--", text)
    if (text ~ /\\/) fail()
    return text
}

function fail() {
    print "manual: line " FNR " is not understood: " $0 | "cat >&2"
    failed = 1
    exit 1
}

function end_line() {
    if (filled != "") print filled
    filled = ""
}

function begin_paragraph() {
    end_line()
    if (!after_heading) print ""
    after_heading = 0
    indent = margin
}

# A short tag stands before its text, a longer one on a line of its own.
function add_tag(tag) {
    filled = spaces(margin) tag
    if (length(tag) > 5) end_line()
    else filled = filled spaces(6 - length(tag))
    indent = margin + 7
    tag_follows = 0
}

function add(text,    word, count, i) {
    after_heading = 0
    if (tag_follows) {
        add_tag(text)
    } else if (verbatim) {
        print spaces(indent) text
    } else {
        count = split(text, word, " ")
        for (i = 1; i <= count; i++) {
            if (filled != "" && length(filled " " word[i]) > 78) end_line()
            filled = filled == "" ? spaces(indent) word[i] : filled " " word[i]
        }
    }
}

# the words behind a macro; those in quotes are one
function take_arguments(text,    part, parts, i, word, words, j) {
    arguments = 0
    parts = split(text, part, "\"")
    for (i = 1; i <= parts; i++) {
        words = i % 2 == 0 ? 1 : split(part[i], word, " ")
        if (i % 2 == 0) word[1] = part[i]
        for (j = 1; j <= words; j++) argument[++arguments] = word[j]
    }
}

function joined(between,    text, i) {
    for (i = 1; i <= arguments; i++) text = text (i > 1 ? between : "") argument[i]
    return plain(text)
}

function print_heading(text) {
    end_line()
    print ""
    print text
    margin = indent = 7
    after_heading = 1
}

function move_margin(by) {
    end_line()
    margin += by
    indent = margin
}

/^\.\\"/ { next }

!/^\./ {
    add(plain($0))
    next
}

{
    take_arguments(substr($0, length($1) + 1))
    if ($1 == ".TH") print argument[1] "(" argument[2] ")" spaces(7) argument[4]
    else if ($1 == ".SH") print_heading(joined(" "))
    else if ($1 == ".PP" || $1 == ".TP") begin_paragraph()
    else if ($1 == ".RS") move_margin(moved[++depth] = arguments > 0 ? argument[1] : 7)
    else if ($1 == ".RE") move_margin(-moved[depth--])
    else if ($1 == ".B" || $1 == ".I") add(joined(" "))
    else if ($1 == ".BR") add(joined(""))
    else if ($1 == ".nf" || $1 == ".fi" || $1 == ".br") end_line()
    else fail()
    if ($1 == ".TP") tag_follows = 1
    if ($1 == ".nf") verbatim = 1
    if ($1 == ".fi") verbatim = 0
}

END { if (!failed) end_line() }
