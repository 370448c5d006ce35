# shellcheck shell=sh disable=SC2034,SC2154
# The sources, and the programs and libraries that are proved and built from them. These are kept in built/, in a folder named by the
# SHA-256 over what they are proved from: each with a record beside it, NAME.proved, of its SHA-256 and of the toolchain that proved it.
# A file is used only where it has that SHA-256.

# Everything that is built: what needs few crates, and is kept while the rest is still proved.
first="show forecast sizes" rest="mask libmasks_c.a libmasks.so.0"
all="$first $rest"

# The files that belong to the project and decide a certificate, a line each: those that git tracks, else those of command/files.txt.
list_sources() {
    set -- toolchain.txt crates.txt crates include fantzori command
    { [ -e .git ] && git ls-files -- "$@" >"$scratch/files" && [ -s "$scratch/files" ]; } 2>/dev/null || cp command/files.txt "$scratch/files"
}

# Sets the key, the SHA-256 over the sorted SHA-256 sums of these files, and proofs_key, the same over those that programs and libraries
# are made from.
find_key() {
    { list_sources && xargs -d '\n' sha256sum -- <"$scratch/files" >"$scratch/unsorted" && LC_ALL=C sort "$scratch/unsorted" >"$scratch/sums"; } \
        2>"$scratch/told" || die "the sources cannot be read, or there is no room in $scratch: $(head -n 1 "$scratch/told")"
    key=$(sha256 <"$scratch/sums")
    proofs_key=$(grep -E '  (toolchain.txt|crates.txt|crates/.*|include/.*|command/library.sh)$' "$scratch/sums" | sha256)
}

# Whether the folder kept has this file as it was built; sets the toolchain that proved it.
is_kept() {
    { read -r sum && read -r toolchain; } 2>/dev/null <"$kept/$1.proved" && [ "$(sha256 2>/dev/null <"$kept/$1")" = "$sum" ] || return
    case $1 in lib*) ;; *) [ -x "$kept/$1" ] ;; esac
}

# Sets missing, those of these files that are not kept.
find_missing() {
    missing=''
    for name; do is_kept "$name" || missing="$missing $name"; done
}

# Sees to these files, proved and built from the sources as they are. Sets kept and key.
see_to() {
    if [ -n "$installed" ]; then
        see_installed "$@"
        return
    fi
    find_key
    kept=built/$proofs_key
    find_missing "$@"
    [ -z "$missing" ] && return
    build_missing "$@"
    find_missing "$@"
    [ -z "$missing" ] || die "built, and yet not there in $kept:$missing"
}

# Sees that the script and these files are as they were installed. Sets kept and key.
see_installed() {
    kept=${home%/}
    if [ ! -r key ] || [ ! -r sums ]; then die "the installation at '$kept' is not whole: install it again"; fi
    key=$(cat key) missing=$(sha256sum -c --quiet sums | sed -n 's/: FAILED.*//p' | tr '\n' ' ')
    [ -n "$missing" ] || find_missing "$@"
    [ -z "$missing" ] || die "not as they were installed in '$kept': ${missing% }; install them again"
}

newline='
'

# Proves and builds those of these files that are not there.
build_missing() {
    need rt "the Rattle toolchain proves and builds what is not built from these sources:$missing"
    need cc "a C compiler links the shared library"
    case $home in *"$newline"*) die "not built, and rt cannot work in a folder with a line feed in its name:$missing" ;; esac
    for name in . built crates/* crates/*/out; do
        if [ -e "$name" ] && [ ! -w "$name" ]; then die "not built, and '$home$name' is not writable:$missing"; fi
    done
    # whoever had the lock may have built them meanwhile
    lock "$@" || return
    find_missing "$@"
    [ -z "$missing" ] || build_all "$missing"
    unlock
}

# Proves and builds these files, and keeps them.
build_all() {
    no_strangers
    progress "proving and building$1, which takes some minutes the first time"
    lend_temporary
    find_toolchain
    # shellcheck disable=SC2046,SC2086
    begin_count $(crates_of $1)
    build_part "$1" "$first"
    build_part "$1" "$rest"
}

# Proves and builds those of some files that are of a part, and keeps them.
build_part() {
    names=''
    for name in $2; do
        case "$1 " in *" $name "*) names="$names $name" ;; esac
    done
    [ -n "$names" ] || return 0
    # shellcheck disable=SC2046,SC2086
    prove $(crates_of $names)
    # shellcheck disable=SC2086
    keep $names
}

# The crates that some files are proved and built from; secrecy has the theorem that mask names.
crates_of() {
    for name; do
        case $name in
        lib*) echo masks_c ;;
        mask) echo mask secrecy ;;
        *) echo "$name" ;;
        esac
    done
}

# Ends where crates/ has a file that rt would read and the key does not cover; what rt itself makes is in each crate's out/.
no_strangers() {
    strange=$(find -L crates -path 'crates/*/out' ! -path 'crates/*/*/out' -prune -o \( -name '*.rt' -o -name '*.antt' \) -print | LC_ALL=C sort | awk 'NR == FNR { known[$0]; next } !($0 in known)' "$scratch/files" -)
    [ -z "$strange" ] || die "not built, as it is no file of the project (git does not track it): $(printf '%s\n' "$strange" | head -n 1)"
}

# Holds the project's folder until unlock or the end; whoever comes second waits. Fails where all of these files are there meanwhile.
lock() {
    exec 9<.
    flock -n 9 && return
    progress "another ./fantzori is proving here: waiting for it"
    until flock -n 9; do
        sleep 0.5
        [ $# -gt 0 ] || continue
        find_missing "$@"
        if [ -z "$missing" ]; then unlock && return 1; fi
    done
}

# Lets go of the project's folder.
unlock() {
    exec 9<&-
}

# These crates and all that they depend on, as crates.txt says.
plan() {
    awk -v names="$*" '
        { sub(/#.*/, ""); at = index($0, ":") }
        # what a crate is, such as staticlib, may stand after its name
        at { split(substr($0, 1, at - 1), words, " "); name = words[1]; needs[name] = substr($0, at + 1) }
        function add(name,    words, count, i) {
            if (!(name in needs) || name in seen) return
            seen[name] = 1
            count = split(needs[name], words, " ")
            for (i = 1; i <= count; i++) add(words[i])
            print name
        }
        END { count = split(names, words, " "); for (i = 1; i <= count; i++) add(words[i]) }' crates.txt
}

# Warns of another toolchain than the one that these sources are for; sets its version.
find_toolchain() {
    toolchain=$(rt version) || die "'rt version' failed"
    [ "$toolchain" = "$(cat toolchain.txt)" ] ||
        say "warning: rt is '$toolchain', and these proofs are for '$(cat toolchain.txt)': they may fail"
}

# Begins to count these crates and what they depend on, as they are proved.
begin_count() {
    seen=' ' count=0 total=$(plan "$@" | wc -l)
}

# Proves these crates and what they depend on, lowest first, and builds them; each once.
prove() {
    for crate in $(plan "$@"); do
        case $seen in *" $crate "*) continue ;; esac
        seen="$seen$crate " count=$((count + 1))
        prove_crate "$crate"
    done
}

# Proves a crate over what it depends on, and builds it: a library for those above it, the archive, or a program, which rt runs too.
# Tells that it is proved now, or that it was before: rt removes the stamp of a library that it is about to prove.
prove_crate() {
    verb=lib stamp=crates/$1/out/rlib/stamp
    if [ -e "crates/$1/src/main.rt" ]; then
        # a program is removed so that rt links it anew, whatever is there
        verb=run && rm -f "crates/$1/out/$1" "crates/$1/out/$1.stamp"
    fi
    rm -f "$scratch/ended"
    # shellcheck disable=SC2016
    begin_apart sh -c '
        cd "$1" || exit
        # what rt says is on standard error where it runs a program
        if [ "$2" = run ]; then rt run <stdin >/dev/null 2>"$3/rt"; else rt lib >"$3/rt" 2>&1; fi
        status=$?
        : >"$3/ended"
        exit "$status"' sh "crates/$1" "$verb" "$scratch"
    while [ -e "$stamp" ] && [ ! -e "$scratch/ended" ]; do sleep 0.1; done
    told=''
    [ -e "$scratch/ended" ] || { told=yes && progress "proving $1, $count of $total"; }
    wait "$group"
    status=$?
    group=''
    [ "$status" -eq 0 ] || not_proved "$1"
    [ -n "$told" ] || progress "$1 was proved before, $count of $total"
}

# Ends with what rt said of a crate.
not_proved() {
    { mkdir -p built && cp "$scratch/rt" built/log; } 2>/dev/null
    grep -E '^(fn [^ ]+: no|error)' "$scratch/rt" >&3 || tail -n 3 "$scratch/rt" >&3
    die "'rt $verb' failed in crates/$1; built/log has all that it said"
}

# Makes a file that was proved, from what rt built; sets from, where it is.
make_file() {
    case $1 in
    libmasks_c.a) from=crates/masks_c/out/$1 ;;
    lib*)
        from=$scratch/$1
        is_kept libmasks_c.a || die "the shared library cannot be linked: there is no archive in $kept"
        link_shared "$kept/libmasks_c.a" include/masks.h "$from" || die "the shared library cannot be linked: $(head -n 1 "$scratch/told")"
        ;;
    *) from=crates/$1/out/$1 ;;
    esac
}

# Keeps these files in built/, if the sources are still those that were proved.
keep() {
    for name; do
        make_file "$name"
        before=$proofs_key
        find_key
        [ "$proofs_key" = "$before" ] || die "a file of crates/ changed while it was being proved: run the command again"
        kept=built/$proofs_key
        { mkdir -p "$kept" && cp "$from" "$kept/$name.new" &&
            { sha256 <"$from" && printf '%s\n' "$toolchain"; } >"$kept/$name.proved.new" &&
            mv -f "$kept/$name.new" "$kept/$name" && mv -f "$kept/$name.proved.new" "$kept/$name.proved"; } 2>"$scratch/told" ||
            die "what was built cannot be kept: $(head -n 1 "$scratch/told")"
    done
}
