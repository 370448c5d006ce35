# shellcheck shell=sh disable=SC2034,SC2154
# The commands on the project itself: version, build, test, fuzz, bench.

# Ends where a command of the project's folder is given to an installed one.
in_project() {
    [ -z "$installed" ] || die "$command is a command of the project's folder, and this one is installed"
}

# The version, the key, and the toolchain that the sources are for or, of an installed command, that proved it.
version() {
    start
    find_version
    if [ -n "$installed" ]; then
        see_to mask forecast sizes show
    else
        find_key
        toolchain=$(cat toolchain.txt)
    fi
    if [ -n "$json" ]; then
        answer <<TXT
{"product":"Fantzori","version":"$version","key":"$key","toolchain":$(json_string "$toolchain")}
TXT
    else
        answer <<TXT
fantzori $version
sources $key
toolchain $toolchain
TXT
    fi
}

# Sets the version: it stands in the header, and an installed command has it in a file.
find_version() {
    if [ -n "$installed" ]; then version=$(cat version); else version=$(version_in include/masks.h); fi
    [ -n "$version" ] || die "'${home}include/masks.h' is not there, or has no version"
}

# The version that a header states.
version_in() {
    sed -n 's/^#define MASKS_VERSION "\(.*\)"$/\1/p' "$1"
}

# Proves and builds what is not built.
build() {
    in_project
    start
    # shellcheck disable=SC2086
    see_to $all
    print <<TXT
proved and built in $kept: $all
TXT
}

# Runs cargo in the folder of a crate, over the archive that is kept.
rust() {
    need cargo "Rust's cargo builds the comparison and the measurement"
    # shellcheck disable=SC2016
    apart env MASKS_LIB_DIR="../$kept" CARGO_TARGET_DIR=../target/rust sh -c 'cd "$1" && shift && exec cargo "$@"' sh "$@" 2>&3
}

# Ends where a check failed.
fail() {
    echo "fantzori: $1"
    exit 1
}

# Ends where rt ci said that an edit is bad, one that could not be applied or read: it passes all the same there.
no_bad_edits() {
    edits=$(grep '^rt: ok; .*must-fail edits: ' "$scratch/rt" | tail -n 1)
    [ -n "$edits" ] || fail "rt ci does not tell how many edits it refused"
    bad=$(printf '%s\n' "$edits" | sed -n 's/.*, \([0-9][0-9]*\) bad[;,].*/\1/p')
    [ "${bad:-0}" -eq 0 ] || fail "edits that must be refused are bad, and show nothing: $bad"
}

# Checks everything. The last line is that of `rt ci`, 'N passed, 0 failed', and only where everything passed.
test_all() {
    in_project
    need rt "the Rattle toolchain checks the proofs"
    need cc "a C compiler links the shared library"
    need cargo "Rust's cargo builds the comparison"
    start
    if command -v shellcheck >/dev/null; then
        shellcheck fantzori command/*.sh docs/sizes .ci/run || fail "shellcheck has something to say"
    else
        echo "shellcheck is not on this machine: the script is not checked by it"
    fi
    lock
    find_toolchain
    find_key
    no_strangers
    lend_temporary
    mkfifo "$scratch/pipe"
    tee "$scratch/rt" <"$scratch/pipe" &
    printer=$!
    apart rt ci >"$scratch/pipe" 2>&1
    status=$?
    wait "$printer"
    verdict=$(tail -n 1 "$scratch/rt")
    case $status:$verdict in
    0:[1-9]*" passed, 0 failed") ;;
    *) fail "the proofs did not pass" ;;
    esac
    no_bad_edits
    # rt ci builds the programs, and proves the archive without building it
    begin_count masks_c
    prove masks_c
    # shellcheck disable=SC2086
    keep $all
    unlock
    rust tests run --release --quiet || fail "the comparison in Rust failed"
    rust tests test --release --quiet || fail "the tests of the separate implementation failed"
    rust tests run --release --quiet -- programs || fail "the tests of the programs failed"
    echo "$verdict"
}

# Compares the library with the separate implementation: SECONDS.
fuzz() {
    case $1 in
    *[!0-9]*) misused "fuzz takes a number of seconds, and not '$1'" ;;
    esac
    in_project
    start
    see_to libmasks_c.a
    rust tests run --release --quiet -- fuzz "$1"
}

# Measures: the same code at four places in memory, as the place alone can make a loop half as slow again.
bench() {
    in_project
    start
    see_to libmasks_c.a
    for BENCH_PAD in 0 16 32 48; do
        export BENCH_PAD
        rust bench run --release --quiet -- measure "$scratch/rows-$BENCH_PAD" || die "the measurement failed"
    done
    rust bench run --release --quiet -- report "$scratch"/rows-* || die "the measurement failed"
    echo
    rust bench run --release --quiet -- stack || die "the measurement failed"
}
