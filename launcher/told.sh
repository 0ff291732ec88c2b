# What the launcher says about the status of a run.

# Says which process has locked the image, if the system shows it.
holder() {
    number=$(stat -L -c %i -- "$image" 2>/dev/null)
    holding=$(awk -v number=":${number:-none}" '$2 == "FLOCK" && substr($6, length($6) - length(number) + 1) == number {
        print $5
        exit
    }' /proc/locks 2>/dev/null)
    runs=''
    [ -z "$holding" ] || runs=$(tr '\0' ' ' <"/proc/$holding/cmdline" 2>/dev/null)
    if [ "$runs" ]; then say "process $holding has $image: ${runs% }"
    else say "another process seems to have $image locked"
    fi
}

no_input() {
    case $input in
        *' '*) say "there is no file '$input'; antelope ask $image takes commands as arguments" ;;
        *) say "there is no $input" ;;
    esac
}

# Says why a run could not begin, as far as its files show.
not_opened() {
    within=$(dirname -- "$image")
    if [ -z "$image" ] || [ -z "${input--}" ]; then say "an empty argument names no file"
    elif [ -d "$image" ]; then say "$image is a directory"
    elif [ -e "$image" ] && { [ ! -r "$image" ] || [ ! -w "$image" ]; }; then say "you may not read and write $image"
    elif [ -L "$image" ] && [ ! -e "$image" ]; then say "$image is a link to nothing"
    elif [ ! -d "$within" ]; then say "there is no directory $within"
    elif [ ! -e "$image" ] && [ ! -w "$within" ]; then say "you may not make a file in $within"
    elif [ "${input--}" != - ] && [ ! -e "$input" ]; then no_input
    elif [ "${input--}" != - ] && [ ! -r "$input" ]; then say "you may not read $input"
    elif [ "$synced" ] && [ ! -r "$within" ]; then say "you may not read the directory $within, which --sync needs"
    elif [ -e "$image" ]; then holder
    else say "$image could not be made: the disk may be full, its name too long, or a limit on files too low"
    fi
}

wrong_length() {
    [ -f "$image" ] || { say "$image is not a regular file"; return; }
    size=$(wc -c <"$image")
    why="no multiple of 4,096"
    [ "$size" -ge 16384 ] || why="too few"
    [ "$size" -le 16773120 ] || why="too many"
    say "$image has $size bytes, $why: an image has 4 to 4,095 sectors of 4,096 bytes"
}

# How many sectors are enough, by `plan`, unless another run has the image by now.
room() {
    planned=''
    [ ! -e "$image" ] || planned=$("$program" plan "$image" 1 </dev/null 2>/dev/null)
    case $planned in
        'sectors needed '*' present '*)
            needed=${planned#sectors needed }
            echo "${needed% present *} sectors are enough for one more row in each relation, and it has ${planned##* }"
            ;;
        *) echo "plan prints how many sectors are enough" ;;
    esac
}

no_space() {
    if [ "$form" = 'repair IMAGE' ]; then
        say "the flash in $image is too full to be repaired; nothing is lost: append sectors of zeros, then repair it"
    else
        say "the flash in $image is full: the last command changed nothing; $(room)"
    fi
}

not_sound() {
    rule="the line names the rule of docs/FORMATS.md and the place"
    case $form in
        check* | repair*) say "$image cannot be repaired, since no power cut leaves such an image: $rule; clients/reader.py may still find rows in it" ;;
        *) say "$image is not sound, and was not changed: $rule; antelope check $image prints what antelope repair $image would change" ;;
    esac
}

# Says what a status means here.
explain() {
    source=$input
    case $form:$input in
        *:-) source="standard input" ;;
        ask*) source="a file of the commands" ;;
    esac
    [ ! -d "$input" ] || source="$input is a directory, which"
    case $status in
        1) usage >&2 ;;
        2) say "$source could not be read to its end; $image is as left by the commands that had arrived whole" ;;
        3) no_space ;;
        4) say "$image could not be read or written, so its state is unknown; the disk may be full, or a limit reached. Make room, copy it, then: antelope repair $image" ;;
        5) say "standard output could not be written; $image is as left by the commands that were carried out" ;;
        6) not_sound ;;
        7) not_opened ;;
        8) say "$source has more than 16,777,216 bytes; the commands that were complete within these were carried out" ;;
        9) say "there was too little memory; $image was not opened or made" ;;
        10) wrong_length ;;
        129 | 1[3-9]?) say "signal $((status - 128)) ended the program; what it was writing into $image may not be whole" ;;
    esac
}

# Says if others removed, replaced or truncated the image while the program had it open. The program then wrote into the
# file that it had opened.
say_what_others_did() {
    case $form:$status in
        :* | *:1 | *:6 | *:7 | *:9 | *:10 | *:125) return ;;
    esac
    now=$(identity "$image")
    [ -z "$made" ] || was="${now% *} 1048576"
    if [ -z "$now" ]; then say "$image was removed or renamed by others during the run: what the run wrote is no longer in it"
    elif [ "${was% *}" != "${now% *}" ]; then say "$image was replaced by others during the run: what the run wrote is not in it"
    elif [ "${was#* }" != "${now#* }" ]; then say "$image was changed by others during the run: it had ${was#* } bytes and has ${now#* }"
    fi
}

# Says which relations are there after a repair, so that nobody mistakes an empty database for a restored one.
say_what_it_holds() {
    [ "$form:$status" = 'repair IMAGE:0' ] && held=$("$program" look "$image" </dev/null 2>/dev/null) || return 0
    case $held in 'relation '*) ;; *) say "$image now has no relation" ;; esac
    printf '%s\n' "$held" | while IFS= read -r line; do
        case $line in 'relation '*) say "$image now has $line" ;; esac
    done
}

say_what_came() {
    [ -z "$made" ] || [ ! -e "$image" ] || say "$image did not exist and was created"
    explain
    say_what_it_holds
    say_what_others_did
}
