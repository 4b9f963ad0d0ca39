# What the scripts share that run built programs; they source it at the top of the repository, with $name as their own name.

# built NAME WORD..: proves and builds a crate's program that is not there, or is older than a source
built() {
    local program=crates/$1/out/$1
    [ -x "$program" ] && [ -z "$(find crates/*/src -name '*.rt' -newer "$program" | head -n 1)" ] && return
    command -v rt > /dev/null || { echo "$name: skipped, there is no rt"; exit 0; }
    (cd "crates/$1" && rt run -- "${@:2}" < stdin > /dev/null 2>&1) || { echo "$name: $1 does not run"; exit 1; }
}
