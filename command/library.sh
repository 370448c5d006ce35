# shellcheck shell=sh disable=SC2034,SC2154
# The library for C: the shared library beside the archive, and what pkg-config reads about each.

# The name that a program linked with the shared library asks for.
soname=libmasks.so.0

# Prints the calls that a header declares, one a line: the names that begin with masks_ and stand before a bracket.
calls_in() {
    awk '
        { text = text $0 "\n" }
        END {
            while ((from = index(text, "/*")) && (size = index(substr(text, from + 2), "*/")))
                text = substr(text, 1, from - 1) " " substr(text, from + size + 3)
            # a preprocessor line may go on in the next
            gsub(/\\\n/, " ", text)
            count = split(text, lines, "\n")
            for (i = 1; i <= count; i++) if (lines[i] !~ /^[ \t]*#/) code = code " " lines[i]
            while (match(code, /[A-Za-z0-9_]+[ \t]*\(/)) {
                name = substr(code, RSTART, RLENGTH - 1)
                sub(/[ \t]+$/, "", name)
                if (name ~ /^masks_/) print name
                code = substr(code, RSTART + RLENGTH)
            }
        }' "$1"
}

# Links the shared library OUT from an archive, with the calls of a header, which must all be there, and no other name exported:
# link_shared ARCHIVE HEADER OUT. The same archive gives the same bytes. Where it fails, the file told says why.
link_shared() {
    { calls_in "$2" >"$scratch/calls" && { [ -s "$scratch/calls" ] || { echo "'$2' declares no call" >&2 && false; }; } &&
        { echo 'MASKS_0 { global:' && sed 's/$/;/' "$scratch/calls" && echo 'local: *; };'; } >"$scratch/exports"; } \
        2>"$scratch/told" || return 1
    # no start files, as nothing is to be set up; with -z text the linker refuses code that is changed where it is loaded
    apart cc -shared -nostartfiles -o "$3" -Wl,--whole-archive "$1" -Wl,--no-whole-archive -Wl,-soname,"$soname" \
        -Xlinker --version-script="$scratch/exports" -Wl,--no-undefined,--no-undefined-version,--build-id=none \
        -Wl,-z,text,-z,now,-z,relro,-z,noexecstack >"$scratch/told" 2>&1
}

# Prints NAME.pc for pkg-config, about programs that link with -lLIBRARY: pkg_config_of NAME LIBRARY. The folder may be moved.
pkg_config_of() {
    cat <<TXT
prefix=\${pcfiledir}/../..
Name: $1
Description: Masked gate tables
Version: $(version_in include/masks.h)
Libs: -L\${prefix}/lib -l$2
Cflags: -I\${prefix}/include
TXT
}
