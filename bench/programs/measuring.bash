# What the scripts of bench/ have in common. Each of them sets `top`, the top of the repository, and reads this file.

# Prints date, commit and machine, above a table.
print_heading() {
    local commit
    commit=$(git -C "$top" rev-parse --short HEAD)
    [[ -z $(git -C "$top" status --porcelain --untracked-files=no) ]] || commit="$commit, with changes"
    echo "$(date '+%Y-%m-%d %H:%M'); commit $commit"
    echo "$(nproc) processors, $(sed -n 's/^model name[^:]*: //p' /proc/cpuinfo | head -n 1); load at the start $(cut -d ' ' -f 1 /proc/loadavg)"
}

# Makes a call this many times, and sets `median` and `least` to its processor seconds, `status` to the last one's status, `size` to
# the number of bytes that it printed, and `peak` to the greatest memory of a call in MB. The text is in the file `printed` of `room`.
time_calls() {
    local count=$1
    shift
    read -r median least status size peak < <(python3 "$top/bench/programs/timed_calls.py" "$count" "$room/printed" "$@")
}

# Prints the nanoseconds of one of so many things, if all take this many seconds.
nanoseconds_each() { awk -v seconds="$1" -v number="$2" 'BEGIN { printf "%.0f\n", seconds * 1e9 / number }'; }

# Copies the crates into the folder `room`, as a repository, without their mutation tests.
copy_crates() {
    tar -C "$top" -c --exclude='crates/*/out' --exclude='crates/*/must-fail' crates crates.txt HANDLES | tar -x -C "$room"
}

# Adds the program NAME of bench/programs to the copy; the other words are the crates that it uses.
add_program() {
    local name=$1 file from=$top/bench/programs/$1 to=$room/crates/$1
    shift
    echo "$name: $*" >>"$room/crates.txt"
    mkdir -p "$to/proofs"
    (cd "$from" && find . -name '*.txt') | while read -r file; do
        mkdir -p "$to/${file%/*}"
        cp "$from/$file" "$to/${file%.txt}"
    done
    touch "$to/proofs/Lib.antt"
}

# Leaves of the copy the crates that the crate needs, and itself.
keep_needed() {
    local needed=" $1 " before='' name rest crate
    while [[ $needed != "$before" ]]; do
        before=$needed
        while IFS=: read -r name rest; do
            [[ $needed == *" $name "* ]] || continue
            for crate in $rest; do
                [[ $needed == *" $crate "* || ! -d $room/crates/$crate ]] || needed+="$crate "
            done
        done <"$room/crates.txt"
    done
    for crate in "$room"/crates/*; do
        crate=${crate##*/}
        [[ $needed == *" $crate "* ]] || { rm -r "$room/crates/$crate"; sed -i "/^$crate:/d" "$room/crates.txt"; }
    done
}

# Proves and builds a program of the copy, which does nothing without words, and sets `program` to its file. Of the crates below it,
# `rt ci` takes what an earlier gate on this machine has proved, where nothing has changed. It compares too what the program prints with a
# file that is not there, so its status does not count.
build_program() {
    program=$room/crates/$1/out/$1
    keep_needed "$1"
    (cd "$room" && rt ci) >"$room/log" 2>&1 || true
    [[ -x $program ]] || { cat "$room/log"; exit 1; }
}
