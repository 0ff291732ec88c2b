# Prints how many commands a script has.
function take(text, at) {
    commands++
}

function ended() {
    print commands + 0
}
