# Completion of antelope for bash.
_antelope() {
    local forms='run ask serve gen plan dump look check repair collect' at=1 word=${COMP_WORDS[COMP_CWORD]}
    # options and `try` come before the form
    while ((at < COMP_CWORD)) && [[ ${COMP_WORDS[at]} == --* || ${COMP_WORDS[at]} == try ]]; do ((at++)); done
    COMPREPLY=()
    if ((COMP_CWORD == at)); then
        mapfile -t COMPREPLY < <(compgen -W "$forms try install help --strict --sync --csv --header --version" -- "$word")
    elif ((COMP_CWORD == at + 1)) || [[ ${COMP_WORDS[at]} == run || ${COMP_WORDS[at]} == serve ]]; then
        mapfile -t COMPREPLY < <(compgen -f -- "$word")
    fi
}
complete -o filenames -F _antelope antelope
