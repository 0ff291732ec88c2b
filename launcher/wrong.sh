# What is wrong with the arguments.

# The line of `forms` that was meant, if there is one.
meant() {
    wanted=$1
    case "$*" in *=*) [ "$1" != plan ] || wanted='plan IMAGE NAME' ;; esac
    echo "$forms" | while IFS='|' read -r form _; do
        case $form in "$wanted "* | "$wanted="*) echo "$form"; break ;; esac
    done
}

# Says why an argument is not a number in this range with at most this many digits.
not_number() {
    value=${2#"${2%%[!0]*}"}
    case $2 in
        '') say "$1 is missing: it is a number from $4 to $5" ;;
        *[!0-9]*) say "$1 must be a number from $4 to $5, not '$2'" ;;
        *)
            if [ ${#value} -gt ${#5} ] || [ "${value:-0}" -gt "$5" ]; then say "$2 $6: $1 is $4 to $5"
            elif [ "${value:-0}" -lt "$4" ]; then say "$2 is too small: $1 is $4 to $5"
            else say "$2 has more than $3 digits: $1 is $4 to $5"
            fi
            ;;
    esac
}

# Says why an argument is not NAME=ROWS.
not_named() {
    case $1 in
        *=*) ;;
        *) say "'$1' is not NAME=ROWS, such as readings=1000"; return ;;
    esac
    if ! is_name "${1%%=*}"; then say "'${1%%=*}' cannot be the name of a relation"
    elif ! is_number "${1#*=}" 5 0 32767; then say_misfit ROWS "${1#*=}"
    else say "${1%%=*} is named twice"
    fi
}

# Says why an argument does not fit its place.
say_misfit() {
    case $1 in
        SEED) not_number SEED "$2" 10 0 4294967295 "is too large" ;;
        COUNT) not_number COUNT "$2" 6 1 100000 "commands are too many" ;;
        ROWS) not_number ROWS "$2" 5 0 32767 "rows are too many" ;;
        NAME=ROWS) not_named "$2" ;;
    esac
}

# Says which argument is missing, does not fit, or is one too many.
say_wrong_word() {
    places=$1 named=' '
    shift
    for place in $places; do
        [ "$place" != .. ] || break
        [ $# -gt 0 ] || { say "$place is missing"; return; }
        fits "$place" "$1" || { say_misfit "$place" "$1"; return; }
        shift
    done
    [ "$place" = .. ] || { say "'$1' is one argument too many"; return; }
    for word in "$@"; do
        is_named "$word" || { not_named "$word"; return; }
    done
    say "at most eight relations may be named"
}

# Says what is wrong, and shows the usage of the command that was meant, or of all.
say_what_is_wrong() {
    if [ $# -eq 0 ]; then
        [ -z "$tried" ] || say "try takes a command, or one argument: a script file, or -"
        usage >&2
        return
    fi
    form=$(meant "$@")
    if [ -z "$form" ]; then
        case $tried:$#:$1 in
            *:--*) say "there is no option $1" ;;
            yes:1:*) say "'$1' is neither a command nor a readable script" ;;
            *) say "there is no command '$1'" ;;
        esac
        usage >&2
        return
    fi
    case $csv:$strict:$#:$form in
        yes:*:2:ask*) say "--csv and --header need a COMMAND" ;;
        ::* | *:ask* | :yes:*SCRIPT*) say_wrong_word "$form" "$@" ;;
        yes:*) say "--csv and --header work with ask, not with $1" ;;
        *) say "--strict works with run, not with $1" ;;
    esac
    echo "usage: antelope $form" >&2
    echo "antelope help shows all commands" >&2
}
