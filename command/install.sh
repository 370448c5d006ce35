# shellcheck shell=sh disable=SC2034,SC2154
# The commands install and uninstall. An installation has a folder for each build, libexec/fantzori/KEY, and the link 'current' to the
# one in use, so that a command has one of them for its whole run. libexec/fantzori/installed lists what install wrote and made, files
# and, with a slash at their end, folders.

# Where builds are, below PREFIX.
own=libexec/fantzori

# Puts the command, the libraries, the header and the pages under a folder: PREFIX.
install_under() {
    in_project
    [ -n "$1" ] || die "the name of the folder to install in is empty"
    start
    absolute "$1"
    [ "$(readlink -f -- "$path")" != "$(readlink -f .)" ] || die "'$1' is the project's own folder: install somewhere else"
    to=$path stage=$scratch/stage
    # shellcheck disable=SC2086
    see_to $all
    umask 022
    { stage_files && hold_prefix && find_before && list_files >"$scratch/files" && put_all && forget_older; } 2>"$scratch/told" ||
        die "it cannot be installed: $(head -n 1 "$scratch/told")"
    print <<TXT
installed in $1: bin/fantzori, lib/libmasks_c.a, lib/libmasks.so.0, lib/pkgconfig/, include/masks.h, libexec/fantzori/, share/
TXT
}

# Makes all that is installed in scratch/stage, as it will stand under PREFIX; links too.
stage_files() {
    version=$(version_in include/masks.h)
    mkdir -p "$stage/bin" "$stage/lib/pkgconfig" "$stage/include" && stage_build "$stage/$own/$key" && stage_pages "$stage/share" &&
        ln -s "$key" "$stage/$own/current" && launcher >"$stage/bin/fantzori" && chmod 755 "$stage/bin/fantzori" &&
        cp "$kept/libmasks_c.a" "$kept/libmasks.so.0" "$stage/lib" && ln -s libmasks.so.0 "$stage/lib/libmasks.so" &&
        pkg_config_of masks masks_c >"$stage/lib/pkgconfig/masks.pc" &&
        pkg_config_of masks-shared masks >"$stage/lib/pkgconfig/masks-shared.pc" && cp include/masks.h "$stage/include"
}

# The folder of a build: the script, the programs with their records, the key, the version, and the sums of all these.
stage_build() {
    mkdir -p "$1/command" && cp fantzori "$1" && cp command/*.sh command/help.txt "$1/command" || return
    for name in mask forecast sizes show; do cp "$kept/$name" "$kept/$name.proved" "$1" || return; done
    echo "$key" >"$1/key" && echo "$version" >"$1/version" &&
        (cd "$1" && find . -type f | sed 's/^..//' | LC_ALL=C sort | xargs -d '\n' sha256sum -- >"$scratch/own") && cp "$scratch/own" "$1/sums"
}

# The pages that a certificate names, the manual page and the completions.
stage_pages() {
    mkdir -p "$1/doc/fantzori" "$1/man/man1" "$1/bash-completion/completions" &&
        cp "$format_file" "$conditions_file" "$theorem_file" "$statement_file" "$1/doc/fantzori" &&
        manual_page "$version" >"$1/man/man1/fantzori.1" && completions >"$1/bash-completion/completions/fantzori"
}

# The installed command: it starts the build that is in use.
launcher() {
    cat <<'TXT'
#!/bin/sh
# Starts the fantzori that is in use here, one build for the whole run, also where another is installed meanwhile.
self=$(readlink -f -- "$0" && printf x) || exit 2
self=${self%??}
build=$(readlink -f -- "${self%/*}/../libexec/fantzori/current" && printf x)
build=${build%??}
if [ ! -x "$build/fantzori" ]; then
    echo "fantzori: the installation at '${self%/bin/*}' is not whole: install it again" >&2
    exit 2
fi
exec "$build/fantzori" "$@"
TXT
}

# Makes the folder PREFIX, and holds it until the end; whoever comes second waits. Sets is_new where it was not there.
hold_prefix() {
    is_new=''
    [ -e "$to" ] || is_new=yes
    mkdir -p "$to" || return
    exec 8<"$to"
    until flock -n 8; do sleep 0.2; done
}

# Sets before, the build that is in use under PREFIX, and copies what is listed there to scratch/before.
find_before() {
    before=$(readlink "$to/$own/current")
    if [ -e "$to/$own/installed" ]; then cat "$to/$own/installed"; fi >"$scratch/before"
}

# The list of what is installed: folders that are made now or were made before, files that are staged, and the build before.
list_files() {
    {
        grep '/$' "$scratch/before" | grep -v "^$own/."
        [ -z "$is_new" ] || echo ./
        echo "$own/installed"
        (cd "$stage" && find . -mindepth 1 -type d | sed -e 's/^..//' -e 's|$|/|') | while read -r name; do
            case $name in "$own/$key/"*) ;; *) [ ! -e "$to/$name" ] || continue ;; esac
            echo "$name"
        done
        (cd "$stage" && find . ! -type d | sed 's/^..//')
        [ -z "$before" ] || grep "^$own/$before/" "$scratch/before"
    } | LC_ALL=C sort -u
}

# Puts every staged file in its place, by renaming it; the list first, with all that is there, and the link to the build last.
put_all() {
    LC_ALL=C sort -u "$scratch/files" "$scratch/before" >"$scratch/union" && put "$scratch/union" "$own/installed" || return
    (cd "$stage" && find . ! -type d | sed 's/^..//' | grep -v "^$own/current$") >"$scratch/staged" || return
    while read -r name; do
        put "$stage/$name" "$name" || return
    done <"$scratch/staged"
    put "$stage/$own/current" "$own/current"
}

# Puts a file or link under PREFIX, whole.
put() {
    mkdir -p "$(dirname "$to/$2")" && name_beside "$(dirname "$to/$2")" && cp -P -- "$1" "$beside" || return
    if [ ! -h "$1" ]; then
        if [ -x "$1" ]; then chmod 755 "$beside"; else chmod 644 "$beside"; fi || return
    fi
    mv -fT -- "$beside" "$to/$2" || return
    beside=''
}

# Removes what an earlier installation has and this one has not, but for the build before, which may still be in use.
forget_older() {
    LC_ALL=C sort -u "$scratch/before" | LC_ALL=C comm -2 -3 - "$scratch/files" >"$scratch/older"
    remove_listed "$scratch/older"
    put "$scratch/files" "$own/installed"
}

# Removes the files of a list under PREFIX, then the folders of it that are empty. Sets removed, the number of files.
remove_listed() {
    removed=0
    while read -r name; do
        case /$name in */../* | */) continue ;; esac
        if [ -e "$to/$name" ] || [ -h "$to/$name" ]; then rm -f -- "$to/$name" && removed=$((removed + 1)) || return; fi
    done <"$1"
    # what is in a folder comes before it
    LC_ALL=C sort -r "$1" | while read -r name; do
        case /$name in */../*) ;; /./) rmdir -- "$to" ;; */) rmdir -- "$to/$name" ;; esac
    done
    return 0
}

# Removes what install wrote: PREFIX.
uninstall() {
    [ -n "$1" ] || die "the name of the folder is empty"
    start
    absolute "$1"
    to=$path
    [ -f "$to/$own/installed" ] || die "nothing is installed in '$1': it has no $own/installed"
    cp "$to/$own/installed" "$scratch/list" || die "'$1/$own/installed' cannot be read"
    remove_listed "$scratch/list" 2>"$scratch/told" || die "not all of it can be removed: $(head -n 1 "$scratch/told")"
    print <<TXT
removed from $1: $(count_of "$removed" file)
TXT
}
