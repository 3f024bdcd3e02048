# Sourced by tests/edit and tests/more-edits, in the repository's top folder: tries the edits chosen, and no others.
#
# rt must-fail NAME tries all edits in must-fail/ of NAME. So rt works on a copy of the crates that has the chosen edits
# alone; what rt check kept here of the same crates serves there too.

# Makes the copy, without an edit. It is removed when the script ends.
copy_crates() {
    copy=$(mktemp -d "$PWD/target/edits.XXXXXX")
    trap 'rm -rf "$copy"' EXIT
    trap 'exit 130' INT
    trap 'exit 143' TERM
    cp crates.txt "$copy"
    for crate in crates/*; do
        mkdir -p "$copy/$crate"
        for part in src specs proofs; do
            [ ! -d "$crate/$part" ] || cp -R "$crate/$part" "$copy/$crate"
        done
    done
}

# Chooses edits of a crate: CRATE FILE..
choose() {
    folder=$copy/crates/$1/must-fail
    shift
    mkdir -p "$folder"
    cp "$@" "$folder"
}

# Tries the edits chosen, of these crates or of every crate, and says of each how it was refused, or that it was not.
# The exit status is that of rt must-fail, where 1 says that an edit was not refused, or could not be applied or read.
try_edits() {
    (cd "$copy" && rt must-fail "$@")
}
