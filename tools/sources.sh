# What the programs of this clone are made of, and which built programs are made of these sources: sourced by the scripts that
# run, ship and install programs.
# here: the top of the clone
# shellcheck shell=sh

# The programs, and the processors for which each is shipped. A program for a processor is the file NAME-CPU.
programs='rq rqlook rqlog'
# shellcheck disable=SC2034
processors='x86-64-v2 x86-64-v3'
# Programs that the repository brings, and those that were built here; each folder has receipts.
shipped=$here/dist
built=$here/build
# Most of a restart's memory is touched once. Pages of 2 MiB, if the kernel gives them on request, cost fewer faults. A block
# of 512 KiB or more goes back to the system as soon as it is freed: glibc would raise that bound to 32 MiB by itself. Up to
# 16 MiB of smaller ones stay: an audit makes a state for each checkpoint that may be true, and needs as much again for the next.
# shellcheck disable=SC2034
tunables=glibc.malloc.hugetlb=1:glibc.malloc.mmap_threshold=524288:glibc.malloc.trim_threshold=16777216
# What the script of rqlook does before it: if the output is a terminal, the program is told how many columns that has. A shell
# tells none by itself.
# shellcheck disable=SC2016,SC2034
tell_columns='[ ! -t 1 ] || { [ -n "$COLUMNS" ] || COLUMNS=$(stty size <&3 2> /dev/null); export COLUMNS="${COLUMNS#* }"; } 3>&1'

# What the script of rq says in its place, if it is asked for its help: the program itself answers `rq: usage`. The manual has it all.
help_of_rq() {
    awk '
        BEGIN { line = "usage:" }
        { gsub(/\\/, "") }
        /^\.SH/ { part = $2; next }
        part == "NAME" { sub(/ - /, ": "); print; print "" }
        part == "SYNOPSIS" && /^\.br/ { print line; line = "      "; next }
        part == "SYNOPSIS" { $1 = ""; line = line $0 }
        END { print line; print "\nThe manual says what each does." }' "$here/docs/rq.1"
}

version_of_rq() {
    sed -n '1s/.*"\(rq [0-9.]*\)".*/\1/p' "$here/docs/rq.1"
}

# The widest target of which the processor has every instruction: digests are checked in lanes of its vectors.
target() {
    for flag in abm avx avx2 bmi1 bmi2 f16c fma movbe xsave; do
        grep -q "^flags.*[[:space:]]$flag\([[:space:]]\|\$\)" /proc/cpuinfo 2> /dev/null || { echo x86-64-v2; return; }
    done
    echo x86-64-v3
}

# The crates that a program is made of: its own, and those below it in crates.txt.
crates_of() {
    awk -v name="$1" '
        function show(crate, at, below, count) {
            if (crate in shown || !(crate in lines)) return
            shown[crate] = 1
            print crate
            count = split(lines[crate], below, " ")
            for (at = 1; at <= count; at++) show(below[at])
        }
        { sub(/#.*/, "") }
        /:/ { crate = $1; sub(/:.*/, "", crate); sub(/^[^:]*:/, ""); lines[crate] = $0 }
        END { show(name) }' "$here/crates.txt"
}

# The sum over the sums of all files that a program is made of: code, definitions and proofs of its crates, HANDLES, and the
# crates' lines of crates.txt. What an editor leaves beside a file is none of them.
made_of() (
    cd "$here" || exit 1
    crates=$(crates_of "$1")
    parts=$(for crate in $crates; do
        for part in src specs proofs; do [ ! -d "crates/$crate/$part" ] || echo "crates/$crate/$part"; done
    done)
    {
        # shellcheck disable=SC2086
        find $parts HANDLES -type f ! -name '.*' ! -name '*~' -print0 | LC_ALL=C sort -z | xargs -0 sha256sum
        for crate in $crates; do grep "^${crate}[ :]" crates.txt; done | LC_ALL=C sort
    } | sha256sum | cut -d' ' -f1
)

sum_of() {
    sha256sum < "$1" | cut -d' ' -f1
}

# The lines of a receipt: what a program is made of, and the bytes of its file.
receipt_of() {
    echo "$1 made-of $2"
}

receipt_of_file() {
    echo "${1##*/} sha256 $(sum_of "$1")"
}

# Whether the receipt has the line.
has_line() {
    grep -qxF -e "$2" "$1" 2> /dev/null
}

# Whether the receipt says that the program is made of sources of this sum.
is_made_of() {
    has_line "$1" "$(receipt_of "$2" "$3")"
}

# Whether the file has the bytes that the receipt names.
is_as_told() {
    [ -f "$2" ] && has_line "$1" "$(receipt_of_file "$2")"
}

# Prints the file of a program for a processor that is made of sources of this sum, and fails if there is none.
program_of() {
    if is_made_of "$shipped/receipt" "$1" "$3" && is_as_told "$shipped/receipt" "$shipped/$1-$2"; then
        echo "$shipped/$1-$2"
    elif is_made_of "$built/$1-$2.receipt" "$1" "$3" && is_as_told "$built/$1-$2.receipt" "$built/$1-$2"; then
        echo "$built/$1-$2"
    else
        return 1
    fi
}
