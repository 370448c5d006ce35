# shellcheck shell=sh disable=SC2034,SC2154
# The words of a command: its options, and its help; both by help.txt, which says how it is written.

# What the options say: yes where one is given, and the order that draw is given.
dom='' quiet='' json='' drawn_order=''

# Sets what the usage of a command says: usage, options, and the least and the most words; nothing where there is no such command.
find_usage() {
    usage=$(name=$1 awk '
        $1 == "=" && $2 == ENVIRON["name"] {
            for (i = 3; i <= NF; i++) {
                word = $i
                depth += gsub(/\[/, "", word)
                closes = gsub(/\]/, "", word)
                if (word ~ /^--/) { options = options " " word; is_value = !closes && $(i + 1) ~ /^[A-Z]/ }
                else if (is_value) is_value = 0
                else if (word ~ /^[A-Z]/) { least += !depth; most += word ~ /\.\.$/ ? 99999 : 1 }
                depth -= closes
            }
            print substr($0, 3) "|" options " |" least + 0 "|" most + 0
        }' "$parts/help.txt")
    most_words=${usage##*|} usage=${usage%|*}
    least_words=${usage##*|} usage=${usage%|*}
    options=${usage##*|} usage=${usage%|*}
}

# Ends with what is wrong with a command's words, and its usage.
misused() {
    die "$1; usage: fantzori $usage"
}

# Takes an option of the command, which is followed by so many words, the first of them given. Sets used, how many of these it takes.
take_option() {
    used=0 given=${1%%=*}
    case $options in *" $given "*) ;; *) misused "$command has no option '$1'" ;; esac
    case $1 in
    --order | --order=*)
        [ -z "$drawn_order" ] || misused "--order is given twice"
        drawn_order=${1#--order} drawn_order=${drawn_order#=}
        if [ "$1" = --order ] && [ "$2" -gt 0 ]; then drawn_order=$3 used=1; fi
        [ -n "$drawn_order" ] || misused "--order has no order"
        ;;
    --dom) [ -z "$dom" ] || misused "--dom is given twice" && dom=yes ;;
    --quiet | --json)
        [ -z "$quiet$json" ] || misused "only one of --quiet and --json can be given, and once"
        if [ "$1" = --json ]; then json=yes; else quiet=yes; fi
        ;;
    *) misused "'$given' takes no value" ;;
    esac
}

# Ends unless these are as many words as the command's usage says.
count_words() {
    [ $# -ge "$least_words" ] || misused "$command takes more words"
    [ $# -gt "$most_words" ] || return 0
    shift "$most_words"
    misused "$command takes nothing more, and not '$1'"
}

# The help of a command, or the list of commands.
help() {
    [ $# -eq 0 ] || [ "$1" = help ] || find_usage "$1"
    [ -n "$usage" ] || die "there is no command '$1': see 'fantzori help'"
    if [ $# -eq 0 ]; then list_commands; else help_of "$1"; fi | print
}

# The list of commands.
list_commands() {
    printf '%s\n' "Fantzori masks gate tables: whoever holds at most t needles to a table that was" \
        "masked at order t, each on a gate with its pins, learns nothing of the key." ''
    awk '
        $1 == "=" { name = $2 }
        $1 == "-" { printf "  fantzori %-10s %s\n", name, substr($0, 3) }
        sub(/^@/, "")' "$parts/help.txt"
    printf '%s\n' '' "'fantzori help COMMAND' tells what a command takes, does and prints. Options may" \
        "stand anywhere before '--'; '-' is standard input or output." \
        "Status: 0 done; 1 refused, or something failed or differs; 2 bad arguments, or a" \
        "file that cannot be read or written."
}

# What help.txt has of a command.
help_of() {
    name=$1 awk '
        $1 == "=" { inside = $2 == ENVIRON["name"]; if (inside) print "usage: fantzori " substr($0, 3); next }
        /^[-@#]/ { if (inside && /^-/) print ""; next }
        inside' "$parts/help.txt"
}

# The manual page, for man.
manual_page() {
    printf '.TH FANTZORI 1 "" "Fantzori %s"\n' "$1"
    awk '
        function shown(line) { gsub(/-/, "\\-", line); return line ~ /^[.'\'']/ ? "\\&" line : line }
        BEGIN {
            print ".SH NAME\nfantzori \\- mask gate tables, so that no t needles tell anything of the key"
            print ".SH SYNOPSIS"
        }
        { is_text = !/^[-=@#]/ }
        NR == FNR { if ($1 == "=") print ".br\nfantzori " shown(substr($0, 3)); next }
        FNR == 1 {
            print ".SH DESCRIPTION\nOptions may stand anywhere before \\(oq\\-\\-\\(cq, after which a file may begin with a dash;"
            print "\\(oq\\-\\(cq is standard input or output.\n.SH COMMANDS"
        }
        $1 == "=" { if (as_is) print ".fi"; as_is = 0; print ".SS fantzori " shown(substr($0, 3)) }
        is_text && /^$/ { if (as_is) print ".fi"; as_is = 0; print ".PP" }
        is_text && /^ / { if (!as_is) print ".nf"; as_is = 1; print shown(substr($0, 3)) }
        is_text && /^[^ ]/ { print shown($0) }
        END { if (as_is) print ".fi" }' "$parts/help.txt" "$parts/help.txt"
}

# The completions, for bash.
completions() {
    cat <<'TXT'
# Completes the words of fantzori.
_fantzori() {
    local word=${COMP_WORDS[COMP_CWORD]} options='' names
    COMPREPLY=()
    case ${COMP_WORDS[1]} in
TXT
    awk '
        $1 == "=" {
            options = ""
            for (i = 3; i <= NF; i++) { word = $i; gsub(/[][]/, "", word); if (word ~ /^--/) options = options " " word }
            printf "    %s) options='\''--help%s'\'' ;;\n", $2, options
            names = names " " $2
        }
        END { printf "    esac\n    names='\''%s'\''\n", substr(names, 2) }' "$parts/help.txt"
    cat <<'TXT'
    if [ "$COMP_CWORD" -eq 1 ] || [ "${COMP_WORDS[1]}" = help ]; then
        mapfile -t COMPREPLY < <(compgen -W "$names" -- "$word")
    elif [ "${word:0:1}" = - ]; then
        mapfile -t COMPREPLY < <(compgen -W "$options" -- "$word")
    else
        compopt -o filenames
        mapfile -t COMPREPLY < <(compgen -f -- "$word")
    fi
}
complete -F _fantzori fantzori
TXT
}
