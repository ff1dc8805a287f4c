# What every filter of this folder begins with: the table, its listing and its rooms are read into the names below.
# Standard input is the table's bytes as numbers, as od -An -v -tu1 prints them, for a table may hold any bytes. Environment:
# LISTING   what the program prints for the table: with a plan, or with a refusal
# ROOMS     what it prints with --rooms; may be empty
# BUDGET    the budget named beside the table; empty where none was
# Numbers that come from the table or the listing are kept as they were written there.

function take_byte(byte) {
    byte_count++
    if (ended) {
        lines++
        ended = 0
    }
    line_bytes[lines] = line_bytes[lines] " " byte
    if (byte == 10) ended = 1
}

# a line of a table that is in order, as text without its line feed
function line_text(line,    byte, count, i, text) {
    count = split(line_bytes[line], byte, " ")
    for (i = 1; i < count; i++) text = text sprintf("%c", byte[i] + 0)
    return text
}

function read_table(    line, field) {
    for (line = 1; line <= lines; line++) {
        split(line_text(line), field, "\t")
        if (field[1] == "T") {
            now = field[2]
            own_budget = field[3]
        } else if (field[1] == "F") {
            top_speed = field[2]
            top_cost = field[3]
        } else if (field[1] == "J") {
            jobs++
            number[jobs] = field[2]
            termination[field[2]] = field[6]
            request[field[2]] = field[7]
        } else if (field[1] == "H") {
            holder[field[2]] = field[3]
        }
    }
    budget = ENVIRON["BUDGET"] == "" ? own_budget : ENVIRON["BUDGET"]
}

function read_listing(    count, entry, i, field) {
    count = split(ENVIRON["LISTING"], entry, "\n")
    for (i = 1; i <= count; i++) {
        split(entry[i], field, "\t")
        if (field[1] == "P") {
            speed = field[2]
            energy = field[3]
            planned = field[4]
        } else if (field[1] == "O") {
            place++
            order[place] = field[2]
            finish[field[2]] = field[3]
            fate[field[2]] = 1
        } else if (field[1] == "X") {
            fate[field[2]] = field[3]
        } else if (field[1] == "R") {
            refusal = field[2]
            refused_line = field[3]
        }
    }
}

# The room that the last turn leaves and what the plan spends at top cost make up the budget; without a turn nothing is spent.
function read_rooms(    count, row, field) {
    at_top_cost = 0
    count = split(ENVIRON["ROOMS"], row, "\n")
    if (count == 0) return
    split(row[count], field, "\t")
    at_top_cost = budget - field[3]
}

# a number that was reckoned here, in digits
function whole(x) { return sprintf("%.0f", x) }

# when the job at a place of the plan begins: where the one before it ends
function beginning(at) { return at == 1 ? now : finish[order[at - 1]] }

# the planned job that a planned job waits for, or nothing
function waits_for(job,    held) {
    held = holder[request[job]]
    return request[job] != "0" && held != "" && fate[held] == 1 ? held : ""
}

BEGIN {
    byte_count = lines = place = jobs = 0
    ended = 1
}

{ for (i = 1; i <= NF; i++) take_byte($i + 0) }

# Every job has a fate, and as many are planned as the listing says: a listing that was cut is shown to nobody.
function listing_is_whole(    i) {
    for (i = 1; i <= jobs; i++) if (fate[number[i]] !~ /^[1-6]$/) return 0
    return planned == place "" && place <= jobs
}

# A budget beside the table is refused where the table is in order.
END {
    read_listing()
    if (refusal == "" || ENVIRON["BUDGET_REFUSED"] != "") read_table()
    if (refusal == "") {
        if (!listing_is_whole()) exit 1
        read_rooms()
    }
}
