# Prints a coverage sheet, a page to print and to sign. Of order, times, fates, speed and energy it says what the listing says;
# all else is copied from the table or from docs/FATES.md. Besides what the other filters take, in the environment:
# ABOUT   what --version prints
# FILE    the table's file
# SUM     the check sum of its bytes
# FATES   the file FATES.md
# The page is HTML and well-formed XML at once, so that either parser reads it.

# text of any bytes, for the page
function plain(text) {
    gsub(/[^ -~]/, "?", text)
    return escaped(text)
}

function print_head() {
    print "<!DOCTYPE html>"
    print "<html lang=\"en\" xmlns=\"http://www.w3.org/1999/xhtml\">"
    print "<head>"
    print "<meta charset=\"utf-8\"/>"
    print "<meta name=\"viewport\" content=\"width=device-width, initial-scale=1\"/>"
    print "<title>Coverage sheet</title>"
    print "<style>"
    print "@page { size: A4; margin: 12mm }"
    print "body { font: 8.5pt/1.3 sans-serif; color: #000; background: #fff; max-width: 186mm; margin: 4mm auto }"
    print "@media print { body { margin: 0 auto } }"
    print "h1 { font-size: 14pt; margin: 0 0 2mm } p { margin: 1mm 0 }"
    print "h2 { font-size: 10.5pt; margin: 3.5mm 0 1mm; break-after: avoid }"
    print "table { border-collapse: collapse; width: 100% } tr { break-inside: avoid }"
    print "th, td { text-align: left; vertical-align: top; padding: 0.3mm 2mm 0.3mm 0; border-bottom: 0.2mm solid #bbb }"
    print "td, .signed { overflow-wrap: anywhere } .signed { margin-top: 4mm }"
    print "code { font-family: monospace; overflow-wrap: anywhere } .about th { width: 22mm; font-weight: normal }"
    print ".jobs { columns: 2; column-gap: 8mm; list-style: none; padding: 0; margin: 0; font-size: 8pt }"
    print ".jobs li { break-inside: avoid; border-bottom: 0.2mm solid #bbb; padding: 0.2mm 0 }"
    print ".fates { font-size: 8pt }"
    print ".end { break-inside: avoid } .end svg { width: 100%; height: auto; max-height: 215mm }"
    print ".sign { display: flex; gap: 6mm; margin: 14mm 0 0 }"
    print ".sign span { flex: 2; border-top: 0.3mm solid #000; padding-top: 1mm } .sign .date { flex: 1 }"
    print "</style>"
    print "</head>"
    print "<body>"
}

function print_row(name, text) { print "<tr><th scope=\"row\">" name "</th><td>" text "</td></tr>" }

function table_said() { return ENVIRON["FILE"] == "-" ? "standard input" : "file " plain(ENVIRON["FILE"]) }

# what planned, and what was planned
function print_about(    read) {
    if (split(ENVIRON["ABOUT"], about, "\n") != 4) exit 1
    read = byte_count < 4096 ? byte_count " bytes" : "the first 4096 bytes, which are all that is read"
    print "<h1>Coverage sheet</h1>"
    print "<table class=\"about\">"
    print_row("program", plain(about[1]) ", " plain(about[4]))
    print_row("commit", plain(substr(about[2], length("commit ") + 1)))
    print_row("kit", plain(substr(about[3], length("kit ") + 1)))
    print_row("table", table_said() ", " read)
    print_row("check sum", "SHA-256 <code>" plain(ENVIRON["SUM"]) "</code>")
    if (refusal == "") print_row("clock", "now is " now " ms")
    print "</table>"
}

# the place that each planned job has in the plan
function find_places(    at) {
    for (at = 1; at <= place; at++) place_of[order[at]] = at
}

function job_said(job,    at) {
    if (fate[job] != 1) return "not planned: " reason(fate[job])
    at = place_of[job]
    return "planned as number " at ", " beginning(at) " to " finish[job] " ms"
}

function print_jobs(    i) {
    find_places()
    print "<h2>Jobs</h2>"
    print "<p>" plan_said() ". Times are whole ms, rounded up.</p>"
    print "<ul class=\"jobs\">"
    for (i = 1; i <= jobs; i++) print "<li><b>job " number[i] "</b>, fate " fate[number[i]] ", " job_said(number[i]) "</li>"
    print "</ul>"
}

# Prints the table of FATES.md below its heading of the same words: the fates, what each says and what it does not say. A fate
# has a row more for each thing more that it does not say. Without all six there is no sheet.
function print_fates(    line, cell, inside, found) {
    print "<h2>What each fate says</h2>"
    print "<table class=\"fates\">"
    print "<tr><th>fate</th><th>it says</th><th>it does not say</th></tr>"
    while ((getline line < ENVIRON["FATES"]) > 0) {
        if (line ~ /^## /) inside = line == "## What each fate says"
        if (!inside || line !~ /^\| [1-6]? *\|/) continue
        split(line, cell, / *\| */)
        if (cell[2] != "") found++
        print "<tr><td>" cell[2] "</td><td>" escaped(cell[3]) "</td><td>" escaped(cell[4]) "</td></tr>"
    }
    print "</table>"
    if (found != 6) exit 1
}

# The picture and the line to sign stay together, with what is signed: a sheet of many jobs has more than one page.
function print_end() {
    print "<div class=\"end\">"
    print "<h2>Time line and budget</h2>"
    print_picture()
    print "<p class=\"signed\">Signed for " table_said() ", SHA-256 <code>" plain(ENVIRON["SUM"]) "</code>, " plan_said() \
        "; " plain(about[1]) ", " plain(about[2]) ".</p>"
    print "<p class=\"sign\"><span class=\"date\">date</span><span>name</span><span>signature</span></p>"
    print "</div>"
}

function print_refused(    i) {
    print "<h2>Refused</h2>"
    print "<p>" plain(refusal_said()) "</p>"
    if (line_to_show()) print "<p><code>" plain(shown_line(refused_line, 400)) "</code></p>"
    for (i = 1; i <= hint_count; i++) print "<p>hint: " plain(hints[i]) "</p>"
    print "<p>There is no plan: no job of this table is covered, and there is nothing to sign.</p>"
}

END {
    print_head()
    print_about()
    if (refusal != "") {
        print_refused()
    } else {
        print_jobs()
        print_fates()
        print_end()
    }
    print "</body>"
    print "</html>"
}
