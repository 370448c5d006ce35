# shellcheck shell=sh disable=SC2034,SC2154
# The commands mask, forecast, check and show.

# The file to write, and the one beside it that is renamed to it; '-' is standard output.
take_out() {
    if [ "$1" = - ]; then
        out=- path=/proc/$$/fd/1
        return
    fi
    [ -n "$1" ] || die "the name of the file to write is empty"
    absolute "$1"
    out=$path
    [ ! -d "$out" ] || die "'$1' is a folder, not a file to write"
    if [ -e "$out" ] && [ ! -f "$out" ]; then die "'$1' is no ordinary file: a table is written whole beside it, and renamed"; fi
    if [ -e "$out" ] && [ ! -w "$out" ]; then die "'$1' is there and is not writable"; fi
    if [ -h "$out" ]; then
        out=$(readlink -f -- "$out" && printf x) || die "'$1' is a link that leads nowhere"
        out=${out%??}
    fi
    folder=${out%/*}/
    [ -d "$folder" ] || die "'$1' cannot be written: there is no folder '$folder'"
    [ -w "$folder" ] || die "'$1' cannot be written: the folder '$folder' is not writable"
}

# The file that a name leads to, by the numbers of its device and its inode; nothing where there is none.
identity() {
    stat -L -c %d:%i -- "$1"
}

# Ends where the file to write is the table, under whatever name: masking would overwrite it.
not_the_table() {
    out_identity=$(identity "$path")
    if [ "$1" = - ]; then path=/proc/$$/fd/4; else absolute "$1"; fi
    [ -f "$path" ] && [ "$(identity "$path")" = "$out_identity" ] || return 0
    die "'$2' is the table itself, which would be overwritten: name another file to write"
}

# Writes the masked table to a file beside OUT, which is renamed when it is whole.
write_out() {
    name_beside "${out%/*}"
    (set -C && : >"$beside") || { beside='' && die "'$1' cannot be written: no file can be made beside it"; }
    write_masked "$beside"
    [ ! -e "$out" ] || chmod "$(stat -c %a -- "$out")" "$beside" || die "'$1' cannot keep its permissions"
    mv -f -- "$beside" "$out" || die "'$1' cannot be written"
    beside=''
}

# Masks a table: ORDER TABLE OUT.
mask() {
    start
    take_and "${dom:+DOM}"
    take_order "$1"
    take_out "$3"
    not_the_table "$2" "$3"
    take_table "$2" "$most"
    see_to sizes mask
    if [ "$out" = - ]; then
        write_masked "$scratch/masked"
        print <"$scratch/masked"
    else
        write_out "$3"
    fi
    mask_answer "$3" >"$scratch/answer"
    unwritten="'$3' is written, but standard output is not"
    answer <"$scratch/answer"
}

# What is told of a table that was masked.
mask_answer() {
    if [ -n "$json" ]; then
        on_one_line <<TXT
{"file":$(json_string "$table"),"out":$(json_string "$1"),"order":$order,"and":"$and",
"shares":$shares,"wires":$masked_wires,"tape_bits":$tape_bits,"bytes":$masked_bytes,
"theorem":{"name":"$theorem","file":$(json_string "$(whole_path "$theorem_file")")},
"full_text":$(json_string "$(whole_path "$conditions_file")"),
"plain_sha256":"$plain_sum","masked_sha256":"$masked_sum"}
TXT
    else
        cat <<TXT
$shares shares, $masked_wires wires, $tape_bits tape bits, AND: $and
Whoever holds at most $needles to it in a run with a fresh tape, pins of the touched gates included, learns nothing of the secrets:
'$theorem' in $(shown_page "$theorem_file"), under the conditions in $(shown_page "$conditions_file")
SHA-256 $plain_sum of the table, $masked_sum of the masked one
TXT
    fi
}

# The sizes of the table that masking would write: ORDER TABLE.
forecast() {
    start
    take_order "$1"
    take_table "$2" 65536
    see_to forecast sizes
    line=$(order_and_table | "$kept/forecast") || die "'$kept/forecast' failed"
    # shellcheck disable=SC2086
    set -- $line
    case $1 in
    refused) refused "$2" "$3" "a forecast takes tables of at most 65,535 bytes; mask takes longer ones, and tells their sizes" ;;
    esac
    if [ -n "$json" ]; then
        line="{\"file\":$(json_string "$table"),\"order\":$order,\"shares\":$1,\"wires\":$2,\"tape_bits\":$3,\"bytes\":$4}"
    else
        line="$1 shares, $2 wires, $3 tape bits, $4 bytes"
    fi
    answer <<TXT
$line
TXT
}

# The sizes of tables and their gates by kind: TABLE.., each by itself. The status is the worst of theirs.
check() {
    dashes=0 worst=0
    for name; do [ "$name" != - ] || dashes=$((dashes + 1)); done
    [ "$dashes" -le 1 ] || misused "only one file can be '-', standard input"
    start
    see_to show
    if [ $# -eq 1 ]; then
        check_one "$1" 1
        return
    fi
    for name; do
        (check_one "$name" $#)
        status=$?
        [ "$status" -le "$worst" ] || worst=$status
    done
    exit "$worst"
}

# The sizes of one table, of so many.
check_one() {
    take_table "$1" "$most"
    write_listing "$scratch/table" "$scratch/lines"
    count_kinds "$scratch/table"
    wires=$((inputs + gates)) bytes=$(wc -c <"$scratch/table") before=''
    [ "$2" -eq 1 ] || before="$table: "
    if [ -n "$json" ]; then json_sizes; else sizes; fi >"$scratch/answer"
    answer <"$scratch/answer"
}

# The sizes of a table in words.
sizes() {
    cat <<TXT
$before$(count_of "$inputs" input), $(count_of "$gates" gate), $(count_of "$outputs" output), $(count_of "$wires" wire), $bytes bytes
$before$nots NOT, $xors XOR, $ands AND, $randoms random, $constants constant, $ors OR
TXT
}

# The same as a JSON object.
json_sizes() {
    on_one_line <<TXT
{"file":$(json_string "$table"),"inputs":$inputs,"gates":$gates,"outputs":$outputs,"wires":$wires,"bytes":$bytes,
"kinds":{"not":$nots,"xor":$xors,"and":$ands,"random":$randoms,"constant":$constants,"or":$ors}}
TXT
}

# Lists a table: TABLE.
show() {
    start
    take_table "$1" "$most"
    see_to show
    write_listing "$scratch/table" "$scratch/lines"
    print <"$scratch/lines"
}
