# shellcheck shell=sh disable=SC2034,SC2154
# JSON: strings that are written, and objects that are read.

# A text as a JSON string. A byte that is no part of UTF-8 becomes a lone surrogate, \udc80 to \udcff, as Python names files.
json_string() {
    printf '%s' "$1" | od -A n -v -t u1 | LC_ALL=C awk '
        # how many bytes the character at i has, 0 where it is none
        function long(i,    c, count, low, high, k) {
            c = bytes[i]
            count = c >= 240 ? 4 : c >= 224 ? 3 : 2
            if (c < 194 || c > 244 || i + count > all) return 0
            low = c == 224 ? 160 : c == 240 ? 144 : 128
            high = c == 237 ? 159 : c == 244 ? 143 : 191
            if (bytes[i + 1] < low || bytes[i + 1] > high) return 0
            for (k = 2; k < count; k++) if (bytes[i + k] < 128 || bytes[i + k] > 191) return 0
            return count
        }
        { for (i = 1; i <= NF; i++) bytes[all++] = $i + 0 }
        END {
            printf "\""
            for (i = 0; i < all; i++) {
                c = bytes[i]
                if (c == 34 || c == 92) printf "\\%c", c
                else if (c < 32 || c == 127) printf "\\u%04x", c
                else if (c < 128) printf "%c", c
                else if (count = long(i)) { for (k = 0; k < count; k++) printf "%c", bytes[i + k]; i += count - 1 }
                else printf "\\udc%02x", c
            }
            printf "\""
        }'
}

# A text as it stands in a line: as in a JSON string, without the quotes.
in_a_line() {
    set -- "$(json_string "$1")"
    set -- "${1#?}"
    printf '%s' "${1%?}"
}

# A JSON object that comes in over several lines, on one. Its strings have no line feed.
on_one_line() {
    tr -d '\n'
    echo
}

# The lines of a file as JSON strings with commas between them.
json_lines() {
    separator=''
    while IFS= read -r one; do
        printf '%s' "$separator$(json_string "$one")" && separator=,
    done <"$1"
}

# The values of the JSON object in a file, a line each: the keys on the way to it with dots between them, then its text, strings without
# their quotes and with their escapes as they are. Fails where the file has something else.
json_values() {
    LC_ALL=C awk '
        function fail() { failed = 1; rest = "" }
        function skip() { sub(/^[ \t\r\n]+/, "", rest) }
        function take(mark) { skip(); if (substr(rest, 1, 1) != mark) return 0; rest = substr(rest, 2); return 1 }
        function string() {
            skip()
            if (!match(rest, /^"([^"\\]|\\.)*"/)) { fail(); return "" }
            text = substr(rest, 2, RLENGTH - 2); rest = substr(rest, RLENGTH + 1)
            return text
        }
        function value(path,    name, number) {
            skip()
            if (take("{")) {
                if (take("}")) return
                do { name = string(); if (!take(":")) fail(); value(path == "" ? name : path "." name) } while (take(","))
                if (!take("}")) fail()
            } else if (take("[")) {
                if (take("]")) return
                do value(path "." number++); while (take(","))
                if (!take("]")) fail()
            } else if (substr(rest, 1, 1) == "\"") print path " " string()
            else if (match(rest, /^[-+.0-9a-zA-Z]+/)) { print path " " substr(rest, 1, RLENGTH); rest = substr(rest, RLENGTH + 1) }
            else fail()
        }
        { rest = rest $0 "\n" }
        END { skip(); if (substr(rest, 1, 1) != "{") fail(); else value(""); skip(); exit failed || rest != "" }' "$1"
}
