# Runs the program on the streams of the caller.

# Prints which file it is, by device and number, and its length.
identity() {
    stat -L -c '%d:%i %s' -- "$1" 2>/dev/null
}

# Waits until the child has become the program, or has ended: until then it is a copy of the shell and loses signals.
wait_for_program() {
    shell=$(readlink "/proc/$$/exe") waits=0
    while [ "$shell" ] && [ "$(readlink "/proc/$child/exe")" = "$shell" ] && [ "$waits" -lt 50 ]; do
        sleep 0.01 2>/dev/null || sleep 1
        waits=$((waits + 1))
    done
}

pass_on() {
    heard=yes passed_on=$1
    [ "$child" ] || return
    wait_for_program
    kill "$child" 2>/dev/null
}

pass_signals_on() {
    child='' passed_on=''
    trap 'pass_on 129' HUP
    trap 'pass_on 130' INT
    trap 'pass_on 131' QUIT
    trap 'pass_on 143' TERM
}

# Waits for the end of the program. A wait that a signal interrupts does not return its status.
wait_for_child() {
    status=''
    [ -z "$passed_on" ] || pass_on "$passed_on"
    while
        heard=''
        wait "$child" 2>/dev/null
        now=$?
        [ "$now" -eq 127 ] || status=$now
        [ "$heard" ]
    do :; done
    child=''
    # the shell's status if it could not start the program
    case $status in '' | 126) say "$program could not be started"; status=125 ;; esac
    [ "$status" -ne 143 ] || status=${passed_on:-143}
}

# Starts the program and waits for its end. A background process of a shell ignores INT and QUIT, so each signal is passed
# on as TERM, and the status is that of the signal that came.
carry_out() {
    was=$(identity "$image")
    pass_signals_on
    if { true 3<&0; } 2>/dev/null; then
        exec 3<&0
        "$program" "$@" <&3 3<&- &
    else
        "$program" "$@" <&- &
    fi
    child=$!
    wait_for_child
}

# Runs a form, and counts refusals under `--strict`.
run_form() {
    if [ "$strict" ]; then carry_out_strictly "$@"; else carry_out "$@"; fi
}
