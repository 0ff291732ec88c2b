# Prints for each command of a script, which `cut.awk` cuts, the names in its list; an empty line where it has none.
function take(text, at,    list, capitals) {
    gsub(/[ \t\r\n]+/, " ", text)
    capitals = toupper(text)
    list = ""
    if (match(capitals, /[^A-Z0-9_]PROJECT[^A-Z0-9_]/)) {
        list = substr(text, RSTART + RLENGTH)
    } else if (match(capitals, /^SELECT /)) {
        list = substr(text, RLENGTH + 1)
        if (match(toupper(list), /[^A-Z0-9_]FROM[^A-Z0-9_]/)) list = substr(list, 1, RSTART)
    }
    gsub(/ /, "", list)
    print capitals ~ /^OPEN/ ? "" : list
}

function ended() {
}
