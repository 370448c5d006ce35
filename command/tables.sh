# shellcheck shell=sh disable=SC2034,SC2154
# Tables: reading them, their sizes, their refusals, and how they are masked.

# The longest table, 458,746 bytes, and one byte more.
most=458747

# Tells a refusal of the table by its number, its place and, for 9, its reason.
refused() {
    where=''
    case $1 in
    1) why="the table has fewer than six bytes, or another length than its sizes say" ;;
    2) why="the table has no input, no output, or more than 65,535 wires" ;;
    3) where=" at gate $2" why="its kind is above 5" ;;
    4) where=" at gate $2" why="an operand is not an earlier wire, an unused one is not 0, or a constant's value is above 1" ;;
    5) where=" at output $2" why="it is no wire of the table" ;;
    6) why="the order is not 1 to 15" ;;
    7) where=" at gate $2" why="a random gate, which a table to be masked must not have" ;;
    8) too_large ;;
    9) why=$3 ;;
    *) die "an answer that is not known: refused $1 $2" ;;
    esac
    if [ -n "$json" ]; then
        answer <<TXT
{"file":$(json_string "$table"),"refused":$1,"place":$2,"why":$(json_string "$why")}
TXT
    else
        printf '%s: refused %s\n' "$table" "$1$where: $why" >&3
    fi
    exit 1
}

# Sets why: what the masked table would have too many of, and the largest order at which it has not.
too_large() {
    find_sizes
    why="masked at order $order the table would have $wires wires and $masked_outputs outputs, and 65,535 of each is the most"
    if [ "$fits" -eq 0 ]; then why="$why; no order fits"; else why="$why; the largest order that fits is $fits"; fi
}

# The file to write, and what is told where the answer cannot be printed.
out='' unwritten=''

# Prints the answer that comes in, or nothing where the command is to be quiet: on standard error where the table is on standard output.
answer() {
    if [ -n "$quiet" ]; then return; fi
    if [ "$out" = - ]; then print >&3; else print "$unwritten"; fi
}

# Sets the AND, DOM or ISW: its name, its source, and the text from which printf makes its byte.
take_and() {
    case $1 in
    DOM) and=DOM and_of="VERISICC Deliverable L2.3" and_byte='\001' ;;
    *) and=ISW and_of="Ishai, Sahai and Wagner" and_byte='\000' ;;
    esac
}

# The order as a number without leading zeros, and as the text from which printf makes its byte; above 255 it is as wrong as 255.
take_order() {
    case $1 in
    '' | *[!0-9]*) die "the order '$1' is no number" ;;
    esac
    order=${1#"${1%%[!0]*}"}
    order=${order:-0}
    if [ "${#order}" -gt 3 ] || [ "$order" -gt 255 ]; then order=255; fi
    order_byte=$(printf '\\%03o' "$order")
    needles="$order needles"
    [ "$order" -ne 1 ] || needles='1 needle'
}

# Whether standard input was read.
stdin_read=''

# Copies at most so many bytes of a file to one in scratch: what is then read is what is hashed. '-' is standard input, which can be
# read once. Sets shown, the file's name.
take_file() {
    if [ "$1" = - ]; then
        [ -z "$stdin_read" ] || misused "only one file can be '-', standard input"
        stdin_read=yes shown='standard input'
        [ -e /proc/self/fd/4 ] || die "standard input is closed"
        copy_bytes "$2" "$3" || die "standard input cannot be read, or there is no room for a copy in $scratch"
        return
    fi
    shown=$1
    [ -n "$1" ] || die "the name of a file to read is empty"
    absolute "$1"
    [ -e "$path" ] || die "there is no file '$1'"
    [ ! -d "$path" ] || die "'$1' is a folder, not a file"
    [ -r "$path" ] || die "'$1' cannot be read"
    copy_bytes "$2" "$3" "$path" || die "'$1' cannot be read, or there is no room for a copy in $scratch"
}

# Copies at most so many bytes of a file, else of standard input, to one in scratch. An interrupt ends it at once, also where
# nothing comes through a pipe.
copy_bytes() {
    if [ $# -eq 3 ]; then
        head -c "$1" <"$3" >"$scratch/$2" &
    else
        head -c "$1" <&4 >"$scratch/$2" &
    fi
    reader=$!
    wait "$reader"
    set -- $?
    reader=''
    return "$1"
}

# Takes the table that a command is about, of at most so many bytes.
take_table() {
    take_file "$1" "$2" table
    table=$shown
}

# What is given to a program: the order and the table, after the bytes given, as text from which printf makes them.
order_and_table() {
    # The format is the bytes themselves.
    # shellcheck disable=SC2059
    printf "${1-}$order_byte" && cat "$scratch/table"
}

# The numbers of inputs, gates and outputs of the table in a file; a short file has none of them.
sizes_of() {
    # shellcheck disable=SC2046
    set -- $(od -A n -v -t u1 -N 6 "$1")
    inputs=$((${1:-0} + 256 * ${2:-0})) gates=$((${3:-0} + 256 * ${4:-0})) outputs=$((${5:-0} + 256 * ${6:-0}))
}

# The sizes of the table in a file, and how many gates of each kind it has.
count_kinds() {
    sizes_of "$1"
    # shellcheck disable=SC2046
    set -- $(head -c $((6 + gates)) "$1" | tail -c +7 | od -A n -v -t u1 |
        awk '{ for (i = 1; i <= NF; i++) count[$i]++ } END { for (kind = 0; kind < 6; kind++) print count[kind] + 0 }')
    nots=$1 xors=$2 ands=$3 randoms=$4 constants=$5 ors=$6
}

# Sets what the sizes program prints for the table at the order, also where 8 refuses it: line, the four figures of a forecast; wires and
# outputs of the masked table, and the largest order that fits, 0 where none does.
find_sizes() {
    line=$(order_and_table | "$kept/sizes") || die "'$kept/sizes' failed"
    # shellcheck disable=SC2086
    set -- $line
    [ $# -eq 6 ] || die "an answer that is not known: $line"
    line="$1 $2 $3 $4" wires=$2 masked_outputs=$5 fits=$6
}

# Masks scratch/table into a file. Fails with 1, the status of a program that could not write all, where it may be cut.
run_mask() {
    order_and_table "$and_byte" | "$kept/mask" >"$1" 2>"$scratch/told"
    status=$?
    if read -r told number place <"$scratch/told" && [ "$told" = refused ]; then
        refused "$number" "$place"
    fi
    [ "$status" -le 1 ] || die "'$kept/mask' failed with status $status"
    return "$status"
}

# Masks scratch/table into a file, and compares the sizes of what was written with the forecast.
write_masked() {
    run_mask "$1"
    status=$?
    count_kinds "$1"
    shares=$((2 * order + 1)) masked_wires=$((inputs + gates)) masked_bytes=$(wc -c <"$1")
    tape_bits=$((2 * order * inputs / shares + randoms))
    written="$shares $masked_wires $tape_bits $masked_bytes"
    find_sizes
    [ "$written" = "$line" ] || die "the masked table has the sizes $written, not $line as forecast: is the disk full?"
    [ "$status" -eq 0 ] || die "'$kept/mask' failed with status $status"
    plain_sum=$(sha256 <"$scratch/table") masked_sum=$(sha256 <"$1")
}

# Lists a table in a file by the show program, or tells its refusal.
write_listing() {
    "$kept/show" <"$1" >"$2"
    # with 1 it could not write all
    status=$?
    [ "$status" -le 1 ] || die "'$kept/show' failed"
    if read -r told number place <"$2" && [ "$told" = refused ]; then
        refused "$number" "$place"
    fi
    sizes_of "$1"
    [ "$(wc -l <"$2")" -eq $((1 + gates + outputs)) ] || die "the listing could not be written whole: is there no room in $scratch?"
    [ "$status" -eq 0 ] || die "'$kept/show' failed"
}

# So many of something, by its name in the singular.
count_of() {
    if [ "$1" -eq 1 ]; then echo "1 $2"; else echo "$1 $2s"; fi
}

# The theorem and its statement, their names and files; the pages of what they rest on and of the format.
theorem=demands theorem_file=crates/secrecy/proofs/Whole.antt
statement=Demands statement_file=crates/secrecy/specs/Claims.antt
conditions_file=docs/ASSURANCE.md format_file=docs/FORMAT.md

# The file of a page or a proof where this command runs: of the project, or as it was installed.
find_page() {
    page=$1
    [ -z "$installed" ] || page=$(readlink -f -- "${home}../../../share/doc/fantzori")/${1##*/}
}

# The same as it stands in a line.
shown_page() {
    find_page "$1"
    in_a_line "$page"
}

# The whole path of a page or a proof.
whole_path() {
    find_page "$1"
    case $page in
    /*) printf '%s' "$page" ;;
    *) printf '%s' "$home$page" ;;
    esac
}
