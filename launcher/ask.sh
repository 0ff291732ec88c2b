# Commands as arguments, and a prompt.

# Whether the commands of `ask IMAGE` may make an image: one of them creates something, or they are still to be typed.
makes_relation() {
    [ $# -gt 2 ] || return 0
    shift 2
    case "$*" in *[Cc][Rr][Ee][Aa][Tt][Ee]*) ;; *) return 1 ;; esac
}

# Gives the prompt history and editing, if there is an rlwrap; that runs the launcher again.
edit_lines() {
    [ $# -eq 2 ] && [ -t 0 ] && [ -t 1 ] && [ -z "${SORACHEST_PROMPT-}" ] || return 0
    command -v rlwrap >/dev/null || return 0
    # it refuses a terminal without columns
    case $(stty size 2>/dev/null) in '' | *' 0') return 0 ;; esac
    export SORACHEST_PROMPT=yes
    exec rlwrap -C antelope "$here/antelope" ${tried:+try} "$@"
}

# Prints a command for a script. The line end closes a quote that the command leaves open.
write_command() {
    quotes=$(printf %s "$1" | tr -cd "'")
    end=';'
    [ $((${#quotes} % 2)) -eq 0 ] || end='
;'
    printf '%s%s\n' "$1" "$end"
}

ask() {
    shift 2
    strict=yes
    make_folder
    if [ $# -eq 0 ] && [ -t 0 ] && [ -t 1 ]; then
        prompt
    elif [ $# -eq 0 ]; then
        run_form run "$image" -
    else
        input=$folder/script
        for command in "$@"; do write_command "$command"; done >"$input" || fail "$folder has no space for the commands"
        [ -z "$header" ] || awk -f "$here/launcher/heads.awk" -f "$here/launcher/cut.awk" <"$input" >"$folder/heads"
        run_form run "$image" "$input"
    fi
}

print_commands() {
    cat <<'END'
CREATE RELATION name
CREATE ATTRIBUTE name DOMAIN domain IN relation    domain: INT, LONG, TIME, STRING(n)
CREATE INDEX relation.name TYPE kind               kind: INLINE, MAXHEAP, MEMHASH
INSERT (value, ..) INTO relation
SELECT name, .. FROM relation [WHERE condition]
SELECT COUNT(name), .. FROM relation [WHERE ..]    also SUM, MIN, MAX, MEAN, MEDIAN
JOIN left, right ON name PROJECT name, ..
REMOVE FROM relation [WHERE condition]
REMOVE RELATION relation; REMOVE INDEX relation.name; PACK relation
OPEN 1 query; FETCH 1; CLOSE 1                     cursors 1 to 4
docs/AQL.md is the language. Ctrl-D, or quit, ends the session.
END
}

# Passes on the replies to this many commands, and notes the refusals among them. Fails if the program has ended.
pass_replies() {
    left=$1 at=0
    while [ "$left" -gt 0 ]; do
        IFS= read -r reply <&5 || return 1
        printf '%s\n' "$reply"
        case $reply in
            'no image '*) return 1 ;;
            ok | 'rows '* | 'no '*) at=$((at + 1)) left=$((left - 1)) ;;
        esac
        case $reply in 'no '*) echo "$at $reply" >>"$folder/refusals" ;; esac
    done
}

# Carries out a line that was typed, and explains its refusals.
answer() {
    printf '%s\n' "$1" >"$input"
    wanted=$(LC_ALL=C awk -f "$here/launcher/count.awk" -f "$here/launcher/cut.awk" <"$input")
    printf '%s\n;\n' "$1" >&4
    : >"$folder/refusals"
    pass_replies "$wanted" || return 1
    echo "counts $(grep -c . "$folder/refusals") $wanted" >>"$folder/refusals"
    [ "$(wc -l <"$folder/refusals")" -eq 1 ] || say_refusals
}

# Starts the program on a pipe, and waits until it has the image: closing a cursor changes nothing.
begin_session() {
    mkfifo "$folder/commands" "$folder/replies" || exit 125
    exec 4<>"$folder/commands"
    was=$(identity "$image")
    passed_on=''
    "$program" run "$image" "$folder/commands" >"$folder/replies" 4>&- &
    child=$!
    trap 'pass_on 130; exit 130' INT
    exec 5<"$folder/replies"
    echo 'CLOSE 1;' >&4
    IFS= read -r reply <&5 && [ "$reply" = "no cursor" ]
}

# Answers lines one by one, in one run that has the image until the session ends.
prompt() {
    input=$folder/line
    if begin_session; then
        echo "$image: type commands, help, or Ctrl-D to end"
        while printf 'aql> '; IFS= read -r line || { echo; false; }; do
            case $line in
                help | '?') print_commands ;;
                quit | exit) break ;;
                *) answer "$line" || break ;;
            esac
        done
    else
        [ -z "${reply-}" ] || printf '%s\n' "$reply"
    fi
    exec 4>&-
    wait_for_child
    input=-
}
