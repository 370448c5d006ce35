# shellcheck shell=sh disable=SC2034,SC2154
# The command draw: a table as a graph in DOT, the language of Graphviz.

# Draws a table, as it is or masked at an order: TABLE.
draw() {
    if [ -z "$drawn_order" ] && [ -n "$dom" ]; then misused "draw takes --dom only with --order"; fi
    start
    take_table "$1" "$most"
    shares='' title=''
    if [ -z "$drawn_order" ]; then
        see_to show
        write_listing "$scratch/table" "$scratch/plain"
        can_draw $((inputs + gates)) "'$table' has"
        set -- "$scratch/plain"
    else
        take_order "$drawn_order"
        take_and "${dom:+DOM}"
        see_to sizes mask show
        write_masked "$scratch/masked"
        can_draw "$masked_wires" "'$table' masked at order $order would have"
        title="masked at order $order, AND: $and; a box for each wire and each output of the plain table"
        write_listing "$scratch/table" "$scratch/plain"
        write_listing "$scratch/masked" "$scratch/drawn"
        set -- "$scratch/plain" "$scratch/drawn"
    fi
    write_graph "$@" >"$scratch/graph" || die "the graph could not be written: is there no room in $scratch?"
    print <"$scratch/graph"
}

# Ends where so many wires cannot be drawn, with a line that begins with $2.
can_draw() {
    [ "$1" -gt 2000 ] || return 0
    printf '%s %d wires, and at most 2,000 can be drawn\n' "$2" "$1" >&3
    exit 1
}

# Prints the graph of a listing. Where shares is set, the plain table's listing comes before the masked one's, and names the boxes. Boxes and
# nodes come in the order of their listings: the first nodes are in the first box, and so on.
write_graph() {
    LC_ALL=C awk -v n="$shares" -v title="$title" '
        BEGIN {
            boxes = begun = left = edges = 0
            of_and = n * n + 5 * n * (n - 1) / 2
            look["input"] = "shape=cds"
            look["output"] = "shape=cds, style=bold"
            look["NOT"] = "shape=hexagon"
            look["XOR"] = "shape=ellipse"
            look["AND"] = "shape=box"
            look["OR"] = "shape=octagon"
            look["RANDOM"] = "shape=ellipse, style=\"dashed,filled\", fillcolor=gray90"
            look["CONSTANT"] = "shape=box, style=\"dashed,filled\", fillcolor=gray90"
            print "digraph table {"
            print "  rankdir=LR"
            print "  ranksep=0.9"
            print "  edge [tailport=e, headport=w]"
            if (n) print "  label=\"" title "\""
        }

        # A box, for so many nodes.
        function add_box(text, count) {
            box[boxes] = text
            room[boxes++] = count
        }

        # A node, in the box that is open or in the next one.
        function add_node(name, text, kind,    word) {
            if (n && !left) {
                split(box[begun], word, " ")
                print "  subgraph cluster_" word[1] " {"
                print "    label=\"" box[begun] "\""
                left = room[begun++]
            }
            print (n ? "    " : "  ") name " [label=\"" text "\", " look[kind] "]"
            if (n && !--left) print "  }"
        }

        # An edge; they are printed last, outside of the boxes.
        function add_edge(from, to) {
            edge[edges++] = from " -> " to
        }

        n && NR == FNR {
            if ($1 == "inputs") for (i = 0; i < $2; i++) add_box("w" i, n)
            else add_box($0, $3 == "NOT" ? 1 : $3 == "AND" ? of_and : $3 == "OR" ? of_and + 3 : n)
            next
        }
        $1 == "inputs" {
            for (i = 0; i < $2; i++) add_node("w" i, "w" i, "input")
        }
        /^w/ {
            add_node($1, ($3 == "CONSTANT" ? $3 " " $4 : $3) "\\n" $1, $3)
            for (i = 4; i <= NF; i++) if ($i ~ /^w/) add_edge($i, $1)
        }
        /^out/ {
            add_node($1, $1, "output")
            add_edge($3, $1)
        }
        END {
            for (i = 0; i < edges; i++) print "  " edge[i]
            print "}"
            if (left || begun != boxes) exit 1
        }' "$@"
}
