# Refused commands: how many, which, and what each reply means.

# how many refusals are shown one by one
most_shown=10

# Passes the replies on as they come, with `--csv` only their rows, and copies them.
let_out() {
    heads=''
    [ -z "$header" ] || heads=$folder/heads
    case $csv in
        '') exec tee "$folder/copy" ;;
        *) tee "$folder/copy" | HEADS=$heads LC_ALL=C awk -f "$here/launcher/csv.awk" ;;
    esac
}

# Passes the replies on as they come, and finds the refusals in a copy of them: a line for each of the first ones, and
# one that counts them and all commands.
carry_out_strictly() {
    [ "${folder-}" ] || make_folder
    mkfifo "$folder/replies" "$folder/copy" || exit 125
    awk -v most="$most_shown" '/^(ok$|no |rows )/ { all++ }
        /^no / && refused++ < most { print all, $0 }
        END { print "counts", refused + 0, all + 0 }' <"$folder/copy" >"$folder/refusals" 2>/dev/null &
    counting=$!
    let_out <"$folder/replies" 2>/dev/null &
    copying=$!
    carry_out "$@" >"$folder/replies"
    wait "$copying" || [ "$status" -ne 0 ] || status=5
    wait "$counting"
    counting='' copying=''
    judge_refusals
}

# Makes the status 11 if a command was refused, and says which. At 6 the line that begins with `no ` is not a reply.
judge_refusals() {
    counts=$(tail -n 1 "$folder/refusals" 2>/dev/null)
    case $counts in
        'counts 0 '*) return ;;
        'counts '*) ;;
        *)
            say "the refusals could not be counted: ${TMPDIR:-/tmp} may be full"
            [ "$status" -ne 0 ] || status=125
            return
            ;;
    esac
    [ "$status" -ne 6 ] || return
    [ "$status" -ne 0 ] || status=11
    say_refusals
}

# Explains the refusals that were found, each with its command if that can be read again.
say_refusals() {
    script=/dev/null asked=''
    [ ! -f "$input" ] || script=$input
    case $form in ask*) asked=yes ;; esac
    REFUSALS=$folder/refusals LC_ALL=C awk -v asked="$asked" \
        -f "$here/launcher/refusals.awk" -f "$here/launcher/cut.awk" <"$script" >&2
}
