# The commands of the launcher ("forms" in its sources), and what each does.

# `fits` judges a place in capitals
forms='run IMAGE SCRIPT|carries out a script and prints a reply to each command
ask IMAGE COMMAND ..|carries out these commands of AQL; without one it reads them, at a terminal with a prompt
serve IMAGE INPUT|answers up to four clients on a serial line
gen IMAGE SEED COUNT|carries out generated commands: SEED is 0 to 4294967295, COUNT 1 to 100000
plan IMAGE ROWS|prints how many sectors are enough for ROWS more rows in each relation: 0 to 32767
plan IMAGE NAME=ROWS ..|the same for more rows in up to eight named relations
dump IMAGE|prints the database as a script
look IMAGE|prints the rows of each relation, the indexes and the pages of the flash
check IMAGE|prints whether the image is sound, and what repair would change
repair IMAGE|repairs what a power cut, or a killed run, interrupted
collect IMAGE|erases sectors that hold only old data, so that no INSERT must wait for that'

letters=abcdefghijklmnopqrstuvwxyzABCDEFGHIJKLMNOPQRSTUVWXYZ
# keywords, which are not names, in any letter case
keywords='CREATE RELATION ATTRIBUTE INDEX DOMAIN INT LONG STRING IN TYPE INLINE MAXHEAP MEMHASH INSERT INTO SELECT FROM
WHERE JOIN ON PROJECT REMOVE PACK OPEN FETCH CLOSE AND OR NOT COUNT SUM MIN MAX MEAN MEDIAN'

usage() {
    echo "usage: antelope [OPTION ..] [try] COMMAND, where COMMAND is one of"
    echo "$forms" | while IFS='|' read -r words does; do printf '    %-26s%s\n' "$words" "$does"; done
    cat <<'END'
SCRIPT and INPUT may be - for standard input. run, serve and gen make an IMAGE that does not exist.
    try COMMAND               runs the program without its proofs: the first call compiles it, in less than a minute
    try SCRIPT                carries out a script on a new image, which is not kept
    --strict                  for run: ends with status 11 if a command of SCRIPT was refused
    --sync                    waits until each write is on the disk, in case the machine loses power
    --csv, --header           for ask: prints only the rows, as CSV; the same below a line of names
    install PREFIX [try]      installs the program, its tools and documents below PREFIX
    help, --version           prints this text; prints the version
For example: antelope try run station.img examples/first.aql
END
}

version() {
    known=''
    if [ "$installed" ]; then
        [ ! -e "$here/unproved" ] || known=' (compiled without its proofs)'
    else
        known=$(unset GIT_DIR GIT_WORK_TREE; git -C "$here" log -1 --format=' (%h of %cs)' 2>/dev/null)
    fi
    echo "antelope $(cat "$here/VERSION")$known"
}

# Whether an argument is a number in this range with at most this many digits.
is_number() {
    case $1 in '' | *[!0-9]*) return 1 ;; esac
    [ ${#1} -le "$2" ] && [ "$1" -ge "$3" ] && [ "$1" -le "$4" ]
}

# Whether an argument is a name of AQL.
is_name() {
    case $1 in '' | [!$letters]* | *[!${letters}0123456789_]*) return 1 ;; esac
    [ ${#1} -le 15 ] || return 1
    capitals=$(printf %s "$1" | LC_ALL=C tr a-z A-Z)
    for keyword in $keywords; do [ "$capitals" != "$keyword" ] || return 1; done
}

# Whether an argument is NAME=ROWS, with a name that no argument before it has.
is_named() {
    case $1 in *=*) ;; *) return 1 ;; esac
    is_name "${1%%=*}" && is_number "${1#*=}" 5 0 32767 || return 1
    case $named in *" ${1%%=*} "*) return 1 ;; esac
    named="$named${1%%=*} "
}

# Whether an argument fits its place in a form.
fits() {
    case $1 in
        IMAGE) image=$2 ;;
        SCRIPT | INPUT) input=$2 ;;
        SEED) is_number "$2" 10 0 4294967295 ;;
        COUNT) is_number "$2" 6 1 100000 ;;
        ROWS) is_number "$2" 5 0 32767 ;;
        NAME=ROWS) is_named "$2" ;;
        *) [ "$1" = "$2" ] ;;
    esac
}

# Whether the arguments fit the form that is given first; no form has more than ten. If the form ends with `..`, it gets
# a place for each argument that is left.
is_of() {
    places=$1 image='' named=' '
    unset input
    shift
    [ $# -le 10 ] || return 1
    for place in $places; do
        if [ "$place" = .. ]; then
            form=${form% ..}
            for word in "$@"; do
                is_named "$word" && form="$form NAME=ROWS" || return 1
                shift
            done
        else
            [ $# -gt 0 ] && fits "$place" "$1" || return 1
            shift
        fi
    done
    [ $# -eq 0 ]
}

# Finds the form of the arguments, its IMAGE and its input.
find_form() {
    if [ "${1-}" = ask ]; then
        form='ask IMAGE COMMAND ..' image=${2-} input=-
        [ $# -ge 2 ] && { [ $# -gt 2 ] || [ -z "$csv" ]; }
        return
    fi
    [ -z "$csv" ] || return 1
    while IFS='|' read -r form _; do
        case $form in ask*) continue ;; esac
        case $strict:$form in :* | *SCRIPT*) is_of "$form" "$@" && return ;; esac
    done <<END
$forms
END
    return 1
}
