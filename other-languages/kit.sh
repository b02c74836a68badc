# shellcheck shell=sh
# How the Rattle kit proves and builds what is called here, and how a program that it made is run. Read by ../rodcrank and by run, with `top` the
# repository's folder. A program is for x86-64, and runs as the gate runs it: by itself, or under qemu-x86_64 on another processor.

# Says one line on standard error and ends with status 2: nothing was asked.
stop() {
    echo "$(basename "$0"): $*" >&2
    exit 2
}

find_kit() {
    command -v rt >/dev/null 2>&1 || stop "the Rattle kit is not here: its command rt is not on the path"
    rt version >/dev/null 2>&1 || stop "rt, the Rattle kit's command, does not run on this machine ($(uname -m))"
    emulator=''
    if [ "$(uname -m)" != x86_64 ]; then
        emulator=$(command -v qemu-x86_64) || stop "there is no emulator for this machine ($(uname -m)): no qemu-x86_64 is on the path"
    fi
    for word in $(env | sed -n 's/^\(QEMU_[A-Za-z0-9_]*\)=.*/\1/p'); do unset "$word"; done
}

# Runs a program of the kit's making.
run_made() {
    ${emulator:+"$emulator"} "$@"
}

# A source that is newer than a file, if there is one. The out/ folders of the crates are rt's own.
newer() { # FILE
    than=$1
    set -- "$top/crates.txt"
    for it in "$top"/crates/*/*; do
        case $it in */out) ;; *) set -- "$@" "$it" ;; esac
    done
    find "$@" -newer "$than" | head -n 1
}

# Proves and builds something unless that was done since the last change of the sources: rt's command makes the file in the crate's folder out/, and a
# copy of it is what is used. What rt says goes into a log.
build() { # WHAT-IT-IS COPY CRATE RT-COMMAND FILE
    what=$1 made=$2 crate=$top/crates/$3 log=$top/target/made-$3.log stamp=$top/target/made-$3
    if [ -f "$made" ] && [ -f "$stamp" ] && [ -z "$(newer "$stamp")" ]; then return; fi
    if [ -f "$made" ]; then
        echo "$(basename "$0"): proving what has changed, and building $what" >&2
    else
        echo "$(basename "$0"): proving and building $what. The first time this takes some minutes, up to ten." >&2
    fi
    { mkdir -p "$top/target" "$(dirname "$made")" && : >"$stamp.new"; } 2>/dev/null || stop "nothing can be written to $top/target"
    # rt run also runs the program, here on no input
    if ! { (cd "$crate" && rt "$4" </dev/null) && cp "$crate/out/$5" "$made.new" && mv "$made.new" "$made"; } >"$log" 2>&1; then
        rm -f "$made"
        stop "$what was not built: $log says why"
    fi
    mv "$stamp.new" "$stamp"
}
