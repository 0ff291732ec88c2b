# Writes the rows among replies as CSV, by RFC 4180 but for its line ends; `ok`, counts and refusals are left out. HEADS
# names a file with a line for each command, the names of its columns, which is then the line before its rows.
function quoted(text) {
    if (text !~ /[",]/ && text !~ /^ | $/) return text
    gsub(/"/, "\"\"", text)
    return "\"" text "\""
}

# A text stands in single quotes, and a value that there is not is a minus.
function as_csv(line,    cells, value, taken) {
    while (line != "") {
        if (match(line, /^\047[^\047]*\047/)) {
            value = substr(line, 2, RLENGTH - 2)
        } else {
            match(line, /^[^,]*/)
            value = substr(line, 1, RLENGTH)
            if (value == "-") value = ""
        }
        taken = RLENGTH
        cells = cells (cells_begun++ ? "," : "") quoted(value)
        line = substr(line, taken + 2)
    }
    cells_begun = 0
    return cells
}

BEGIN {
    while (ENVIRON["HEADS"] && (getline names < ENVIRON["HEADS"]) > 0) head[++heads] = names
}

/^(ok$|no |rows )/ {
    command++
    in_rows = 0
    next
}

{
    if (!in_rows++ && head[command + 1]) print head[command + 1]
    print as_csv($0)
    fflush()
}
