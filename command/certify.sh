# shellcheck shell=sh disable=SC2034,SC2154
# The commands certify and verify.

# A certificate, if MASKED is what masking TABLE gives: ORDER TABLE MASKED.
certify() {
    start
    take_and "${dom:+DOM}"
    take_order "$1"
    take_table "$2" "$most"
    take_file "$3" "$most" given
    given=$shown
    see_to sizes mask
    write_masked "$scratch/masked"
    if ! cmp -s "$scratch/masked" "$scratch/given"; then
        find_difference
        find_match
        tell_difference
    fi
    find_facts
    if [ -n "$json" ]; then json_certificate; else certificate; fi >"$scratch/certificate"
    answer <"$scratch/certificate"
}

# Sets what a certificate says beside the sizes of the masked table: of the plain table, the files and the product.
find_facts() {
    count_kinds "$scratch/table"
    find_version
    circuit=${table##*/}
    theorem_at=$(whole_path "$theorem_file") statement_at=$(whole_path "$statement_file")
    conditions_at=$(whole_path "$conditions_file") format_at=$(whole_path "$format_file")
    conditions >"$scratch/conditions"
}

# What the theorem rests on where the masked table is used, a line for each condition.
conditions() {
    cat <<TXT
Each run has a fresh tape: every bit is 0 or 1 with equal chance, independent of the others, of other runs and of the secrets, and is not known.
A needle reads settled values, one for each wire: no glitches before they settle, no timing, power, heat or radiation, no faults.
The encoder, which makes the shares, and the decoder, which puts them together, are not read.
A needle touches one gate and reads its output and the wires on its operands, up to three wires; on an input it reads that wire. Two gates are two needles.
The layout program leaves out, merges, copies and reorders no gate and changes no operand: optimisation is off.
The layout program gives each random gate a bit of its own, no wire two meanings, and joins no shares before the outputs leave the masked part.
TXT
}

# The certificate in words.
certificate() {
    cat <<TXT
Certificate of masking
  product       Fantzori $version
  circuit       $(in_a_line "$circuit")
  inputs        $inputs
  gates         $gates: $nots NOT, $xors XOR, $ands AND, $constants constant, $ors OR
  outputs       $outputs
  order         $order: at most $needles together, pins of the touched gates included
  AND           $and, of $and_of
  shares        $shares for each bit
  wires         $masked_wires in the masked table
  tape          $tape_bits random bits for each run
  plain table   SHA-256 $plain_sum
  masked table  SHA-256 $masked_sum
  theorem       '$theorem' in $(in_a_line "$theorem_at")
  statement     '$statement' in $(in_a_line "$statement_at")
  sources       SHA-256 key $key
  toolchain     $toolchain
  date          $(date -u +%Y-%m-%d)
The masked table is, byte for byte, the one that masking the plain table at order $order with the $and AND gives.
Whoever holds at most $needles to it, pins of the touched gates included, learns nothing of the secrets, under these conditions:
$(sed 's/^/  - /' "$scratch/conditions")
The full text of what this rests on is $(in_a_line "$conditions_at")
The text of what a table means is $(in_a_line "$format_at")
TXT
}

# The same as a JSON object.
json_certificate() {
    on_one_line <<TXT
{"certificate":"masking","product":"Fantzori","version":"$version","circuit":$(json_string "$circuit"),
"inputs":$inputs,"gates":{"not":$nots,"xor":$xors,"and":$ands,"constant":$constants,"or":$ors},"outputs":$outputs,
"order":$order,"and":"$and","shares":$shares,"wires":$masked_wires,"tape_bits":$tape_bits,
"plain_sha256":"$plain_sum","masked_sha256":"$masked_sum",
"theorem":{"name":"$theorem","file":$(json_string "$theorem_at")},
"statement":{"name":"$statement","file":$(json_string "$statement_at")},
"key":"$key","toolchain":$(json_string "$toolchain"),"date":"$(date -u +%Y-%m-%d)",
"conditions":[$(json_lines "$scratch/conditions")],
"full_text":$(json_string "$conditions_at"),"format":$(json_string "$format_at")}
TXT
}

# The field at the byte in a file of scratch: a kind's name where it has one byte, else a number.
field_at() {
    # shellcheck disable=SC2046
    set -- $(od -A n -v -t u1 -j "$at" -N "$wide" "$scratch/$1")
    case $wide:$1 in
    1:0) echo NOT ;;
    1:1) echo XOR ;;
    1:2) echo AND ;;
    1:3) echo RANDOM ;;
    1:4) echo CONSTANT ;;
    1:5) echo OR ;;
    *) echo $(($1 + 256 * ${2:-0})) ;;
    esac
}

# Sets difference: the first gate and field in which scratch/given is not scratch/masked, both numbers, or how the lengths differ.
find_difference() {
    long=$(wc -c <"$scratch/given") due=$(wc -c <"$scratch/masked") wide=2
    # shellcheck disable=SC2046
    set -- $(cmp -l "$scratch/given" "$scratch/masked" | head -n 1)
    at=$((${1:-0} - 1))
    sizes_of "$scratch/masked"
    operands=$((6 + gates)) last=$((6 + 5 * gates))
    if [ "$at" -lt 0 ]; then
        at=$due
    elif [ "$at" -lt 6 ]; then
        at=$((at / 2 * 2))
        case $at in 0) field='number of inputs' ;; 2) field='number of gates' ;; *) field='number of outputs' ;; esac
    elif [ "$at" -lt "$operands" ]; then
        wide=1 field="$(gate_name $((at - 6))), kind"
    elif [ "$at" -lt "$last" ]; then
        at=$((operands + (at - operands) / 2 * 2)) side=left
        [ $(((at - operands) % 4)) -eq 0 ] || side=right
        field="$(gate_name $(((at - operands) / 4))), $side operand"
    else
        at=$((last + (at - last) / 2 * 2)) field="output $(((at - last) / 2))"
    fi
    if [ $((at + wide)) -le "$long" ] && [ "$at" -lt "$due" ]; then
        difference="$field: $(field_at given) is there, $(field_at masked) should be"
    elif [ "$long" -lt "$due" ]; then
        difference="it ends at byte $long, and should have $due bytes"
    else
        difference="byte $due is one too many"
    fi
}

# A gate of the masked table by its number and the wire that it drives.
gate_name() {
    echo "gate $1, wire $((inputs + $1))"
}

# Sets match_order and match_and: the order and the AND with which masking the table gives scratch/given, where there are such.
find_match() {
    match_order='' match_and=''
    sizes_of "$scratch/given"
    given_inputs=$inputs
    sizes_of "$scratch/table"
    # the order is what the number of inputs says
    try=$((given_inputs / inputs / 2))
    if [ "$try" -lt 1 ] || [ "$try" -gt 15 ] || [ $((inputs * (2 * try + 1))) -ne "$given_inputs" ]; then return; fi
    for try_and in ISW DOM; do
        # what is refused is no match
        (take_order "$try" && take_and "$try_and" && run_mask "$scratch/tried") >/dev/null 3>&1 || continue
        if cmp -s "$scratch/tried" "$scratch/given"; then
            match_order=$try match_and=$try_and
            return
        fi
    done
}

# Ends with how a file is not the masked table.
tell_difference() {
    if [ -n "$json" ]; then
        matches=''
        [ -z "$match_order" ] || matches=",\"matches\":{\"order\":$match_order,\"and\":\"$match_and\"}"
        answer <<TXT
{"file":$(json_string "$given"),"table":$(json_string "$table"),"order":$order,"and":"$and","difference":$(json_string "$difference")$matches}
TXT
    else
        matches=''
        [ -z "$match_order" ] || matches="; it is that table masked at order $match_order with the $match_and AND"
        printf '%s\n' "'$given' is not '$table' masked at order $order with the $and AND: $difference$matches" >&3
    fi
    exit 1
}

# Compares a certificate with what is here, where the same is written again: CERT TABLE MASKED.
verify() {
    start
    take_file "$1" 131072 certificate
    cert=$shown form=certificate
    ! json_values "$scratch/certificate" >/dev/null || form=json_certificate
    facts_of "$scratch/certificate" >"$scratch/said"
    take_said || die "'$cert' is no certificate of masking"
    take_table "$2" "$most"
    take_file "$3" "$most" given
    given=$shown
    see_to sizes mask
    write_masked "$scratch/masked"
    find_facts
    "$form" >"$scratch/again"
    facts_of "$scratch/again" >"$scratch/here"
    compare_facts >"$scratch/differences"
    other=''
    if ! cmp -s "$scratch/masked" "$scratch/given"; then
        find_difference
        # a name may have a line feed, so this is no line of a file
        other="'$given' is not '$table' masked at order $order with the $and AND: $difference"
    fi
    tell_differences
}

# What a certificate says, in its form, a line each with a name first; but for the circuit's name, the paths and the date.
facts_of() {
    if [ "$form" = json_certificate ]; then
        json_values "$1" | grep -v -e '^circuit ' -e '^theorem[.]file ' -e '^statement[.]file ' -e '^full_text ' -e '^format ' -e '^date '
        return
    fi
    awk '
        NR == 1 { print "certificate " ($0 == "Certificate of masking" ? "masking" : $0); next }
        /^  circuit  |^  date  / { next }
        /^  (theorem|statement)  |^The (full )?text of what / { sub(/ (in|is) \/.*/, "") }
        /^  - / { print "conditions." conditions++ + 0 " " substr($0, 5); next }
        /^  / { name = substr($0, 3, 12); sub(/ +$/, "", name); sub(/ /, "_", name); print name " " substr($0, 17); next }
        { print "sentence." sentences++ + 0 " " $0 }' "$1"
}

# Takes the order and the AND that a certificate says; fails where it has none, or is no certificate.
take_said() {
    said_order=$(sed -n 's/^order \([0-9]*\).*/\1/p' "$scratch/said") said_and=$(sed -n 's/^\(and\|AND\) \([A-Z]*\).*/\2/p' "$scratch/said")
    grep -q '^certificate masking$' "$scratch/said" || return
    case $said_order:$said_and in [1-9]:ISW | 1[0-5]:ISW | [1-9]:DOM | 1[0-5]:DOM) ;; *) return 1 ;; esac
    take_order "$said_order"
    take_and "$said_and"
}

# A line for each fact in which the certificate and what is here differ.
compare_facts() {
    awk '
        { name = $1; text = substr($0, length($1) + 2) }
        NR == FNR { if (name in said) twice[name]; said[name] = text; next }
        { known[name] }
        !(name in said) { print name ": the certificate does not say it; here it is " text; next }
        said[name] != text || name in twice { print name ": the certificate says " said[name] "; here it is " text }
        END { for (name in said) if (!(name in known)) print name ": the certificate says " said[name] "; here there is none" }' \
        "$scratch/said" "$scratch/here"
}

# Tells in what a certificate differs, or that it agrees.
tell_differences() {
    verified=true
    if [ -s "$scratch/differences" ] || [ -n "$other" ]; then verified=false; fi
    if [ -n "$json" ]; then
        listed=$(json_lines "$scratch/differences")
        [ -z "$other" ] || listed=$listed${listed:+,}$(json_string "$other")
        answer <<TXT
{"file":$(json_string "$cert"),"verified":$verified,"differences":[$listed]}
TXT
    elif [ "$verified" = false ]; then
        {
            while IFS= read -r one; do printf '%s: %s\n' "$cert" "$one"; done <"$scratch/differences"
            [ -z "$other" ] || printf '%s: %s\n' "$cert" "$other"
        } >&3
    else
        answer <<TXT
'$cert' agrees with what is here: '$given' is '$table' masked at order $order with the $and AND
TXT
    fi
    [ "$verified" = true ] || exit 1
}
