# Explains the refusals in the file REFUSALS. It has a line for each of the first ones, a command's number and its reply,
# and one that counts the refusals and all commands. `cut.awk` cuts the script, which is empty if it cannot be read again.
# `asked` is set for commands that were typed: their line numbers are left out.
function say(text) {
    print "antelope: " text
}

function read_refusals(    entry, part) {
    while ((getline entry < ENVIRON["REFUSALS"]) > 0) {
        split(entry, part, " ")
        if (part[1] == "counts") {
            refused = part[2]
            all = part[3]
        } else {
            number[++known] = part[1]
            reply[known] = substr(entry, length(part[1]) + 2)
            place[part[1]] = known
        }
    }
}

# The sentence for a reply.
function meaning(text,    part, n) {
    split(text, part, " ")
    n = part[3]
    if (part[2] == "syntax") return "this is not a command: it goes wrong at the mark"
    if (part[2] == "long") return "a command has at most 512 bytes"
    if (part[2] == "unfinished") return "the last command does not end with ;"
    if (part[2] == "relation") return "there is no relation of that name"
    if (part[2] == "attribute") return "name " n " of the command is not an attribute of the relation"
    if (part[2] == "exists") return "the name is taken, or the attribute already has an index"
    if (part[2] == "empty") return "the relation has rows, or slots of removed rows, so it gets no more attributes"
    if (part[2] == "value") return "value " n " does not fit its attribute, or there are too few or too many values"
    if (part[2] == "type") return "part " n " mixes numbers and texts, or is an aggregate that its attribute does not allow"
    if (part[2] == "domain") return "a STRING has 1 to 32 bytes; or this kind of index does not allow the domain"
    if (part[2] == "full") return "the limit is reached: " part[4] " " part[3]
    if (part[2] == "ordered") return "under an INLINE index keys must not fall, and the key before is " n
    if (part[2] == "inuse") return "cursor " n " is open on the relation: CLOSE " n
    if (part[2] == "indexed") return "the relation has an index: REMOVE INDEX first"
    if (part[2] == "index") return "the attribute has no index"
    if (part[2] == "cursor") return "no cursor of that number is open; cursors are 1 to 4"
    if (part[2] == "open") return "that cursor is open: CLOSE it first"
    if (part[2] == "space") return "the flash has no " n " free pages in a row"
    return "docs/AQL.md lists the replies"
}

# Shows the line of a command in which a byte is, and a mark below it; a long line around the byte.
function show(text, byte, is_marked,    begin, part, from, blank) {
    begin = byte
    while (begin > 0 && substr(text, begin, 1) != "\n") begin--
    part = substr(text, begin + 1)
    sub(/[\r\n].*/, "", part)
    byte -= begin
    from = byte > 80 ? byte - 60 : 0
    part = substr(part, from + 1, 100)
    gsub(/[^ -~]/, is_marked ? "?" : " ", part)
    sub(/ +$/, "", part)
    print "    " part
    while (length(blank) < byte - from) blank = blank " "
    if (is_marked) print "    " blank "^"
}

function take(text, at) {
    commands++
    if (!(commands in place)) return
    command[place[commands]] = text
    found_in[place[commands]] = at
    if (++found == known) exit
}

function ended(    i, is_marked, which) {
    if (!asked)
        say(refused " of " all " commands were refused, the first is command " number[1] \
            (1 in found_in ? ", in line " found_in[1] " of the script" : ""))
    for (i = 1; i <= known; i++) {
        which = asked ? (all > 1 ? "command " number[i] ": " : "") : "command " number[i] ": "
        say(which reply[i] ": " meaning(reply[i]))
        is_marked = reply[i] ~ /^no syntax /
        if (i in command) show(command[i], is_marked ? substr(reply[i], 11) + 0 : 0, is_marked)
    }
    if (refused > known) say("and " refused - known " more were refused")
}

BEGIN {
    read_refusals()
}
