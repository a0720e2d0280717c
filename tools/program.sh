# Runs a program of this clone: the one that the repository brings, if it is made of these sources, else one that is built of
# them first. Sourced by the script of each program, which names it.
# here: the top of the clone; name: the program, which is a crate
# shellcheck shell=sh
. "$here/tools/sources.sh"
cpu=$(target)
file=$name-$cpu
log=$built/log

refuse() {
    echo "$name: $1" >&2
    exit 70
}

# Sets program to one that is made of these sources, and else why to the reason that there is none.
find_program() {
    sum=$(made_of "$name")
    why='the sources are not those of the programs in dist/'
    [ -f "$shipped/receipt" ] || why='dist/ has no programs'
    if is_made_of "$shipped/receipt" "$name" "$sum" && ! is_as_told "$shipped/receipt" "$shipped/$file"; then
        why="dist/$file is not the program that dist/receipt names"
        echo "$name: $why: it is not run" >&2
    fi
    program=$(program_of "$name" "$cpu" "$sum")
}

# Whether the words can be a line of some command, which has two of them at least, and is no question for help: what is none starts no
# build. All else the program judges.
is_worth_a_build() {
    for word in "$@"; do
        case $word in --help | -h | --version) return 1 ;; esac
    done
    [ $# -gt 1 ]
}

# Names the documents to whoever reads.
tell_documents() {
    [ ! -t 2 ] || case $name in
    rq) echo "rq: its lines stand in docs/OPERATING.md and in its manual: man $here/docs/rq.1" >&2 ;;
    rqlook) echo "rqlook: its lines stand in docs/LOOKING.md and in its manual: man $here/docs/rqlook.1" >&2 ;;
    rqlog) echo "rqlog: its lines stand in docs/OPERATING.md and in its manual: man $here/docs/rqlog.1" >&2 ;;
    esac
}

need_toolchain() {
    must="$why, so it has to be built first"
    kit=$(sed -n 's/^kit //p' "$shipped/receipt" 2> /dev/null)
    command -v rt > /dev/null || refuse "$must; and the toolchain is not there: no rt is found on the PATH.
$name: Put the folder bin of a Rattle kit on the PATH${kit:+ ($kit)},
$name: or undo what was changed in the sources or in dist/: git status names it."
    command -v python3 > /dev/null || refuse "$must; and no python3 is found on the PATH"
    mkdir -p "$built" 2> /dev/null && [ -w "$built" ] || refuse "$must; and $built can't be written"
}

# Proves and builds what is not kept of it, from the sources as they stand.
build() {
    echo "$name: $why" >&2
    echo "$name: proving and building it first; what is said goes to $log" >&2
    rm -f "$built/$file.receipt"
    (cd "$here" && exec python3 tools/prove.py "$built" "$file") || exit
    [ "$(made_of "$name")" = "$sum" ] || refuse 'the sources were changed during the build: run it again'
    { receipt_of "$name" "$sum"; receipt_of_file "$built/$file"; } > "$built/$file.receipt"
    program=$built/$file
}

# One build at a time: who comes second waits, and then finds the program.
build_once() {
    need_toolchain
    exec 9> "$built/lock"
    flock -n 9 || {
        echo "$name: waiting for another build to end" >&2
        flock 9
    }
    "$@"
    exec 9>&-
}

build_unless_found() {
    find_program 2> /dev/null || build
}

# For whoever doubts the programs in dist/: whether these sources are proved, and built to the same bytes.
prove() {
    why='its proof is asked for'
    sum=$(made_of "$name")
    build_once build
    echo "$name: proved and built from these sources by $(rt version)"
    if ! is_made_of "$shipped/receipt" "$name" "$sum"; then
        echo "$name: dist/ is of other sources"
        return 1
    fi
    cmp "$built/$file" "$shipped/$file" || {
        echo "$name: dist/$file is another program; its receipt says: $(sed -n 's/^kit //p' "$shipped/receipt")"
        return 1
    }
    echo "$name: dist/$file has the same bytes"
}

case "$name $*" in
*\ --prove)
    prove
    exit
    ;;
'rq --help' | 'rq -h')
    help_of_rq
    exit
    ;;
'rq --version' | 'rq -V')
    version_of_rq
    exit
    ;;
esac

if ! find_program; then
    is_worth_a_build "$@" || {
        echo "$name: usage" >&2
        tell_documents
        exit 2
    }
    build_once build_unless_found
fi
is_worth_a_build "$@" || tell_documents
export GLIBC_TUNABLES="${GLIBC_TUNABLES:-$tunables}"
[ "$name" != rqlook ] || eval "$tell_columns"
exec "$program" "$@"
