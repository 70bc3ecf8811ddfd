# Builds the programs of this repository and starts them. To be sourced from the repository's root.

# Runs a command, and shows what it prints only where it fails.
quietly() {
    local log
    log=$(mktemp)
    "$@" >"$log" 2>&1 || {
        cat "$log" >&2
        rm "$log"
        return 1
    }
    rm "$log"
}

# Proves and builds the programs named: rt builds a program where it runs it, here on no input.
build() {
    local program
    for program; do
        (cd "crates/$program" && quietly rt run </dev/null) || return 1
    done
}

# Starts a built program.
start() {
    "crates/$1/out/$1" "${@:2}"
}
