# Cuts a script into its commands, at each `;` outside quotes. A quote ends at the next quote, or with its line.
# Calls `take` with each command, from its first byte that is no white space on, and its line, and `ended` at the end.
function lines_of(text) {
    return gsub(/\n/, "&", text)
}

function take_piece(text) {
    if (match(text, /[^ \t\r\n]/)) take(substr(text, RSTART), line + lines_of(substr(text, 1, RSTART - 1)))
    line += lines_of(text)
}

BEGIN {
    RS = ";"
    line = 1
}

{
    piece = (in_quotes ? piece ";" : "") $0
    last_line = piece
    sub(/.*\n/, "", last_line)
    gsub(/\047[^\047]*\047/, "", last_line)
    in_quotes = index(last_line, "\047")
    if (!in_quotes) take_piece(piece)
}

END {
    if (in_quotes) take_piece(piece)
    ended()
}
