//! Tests of `draw`: graphs against the parts of their tables, Graphviz on them, what is not drawn.

use std::collections::HashMap;
use std::process::Command;

use compare::circuit::{Circuit, Gate, and, constant, not, or, random, xor};
use compare::examples::{and_chain, the_and};
use compare::model::{self, AND, And, CONSTANT, NOT, OR, XOR};
use compare::samples::samples;

use crate::running::{Folder, Ran, ensure, masked_with, with_and};

/// So many wires can be drawn.
const MOST_DRAWN: usize = 2_000;

pub fn test(folder: &Folder) -> Result<(), String> {
    let graphviz = Command::new("dot").arg("-V").output().is_ok();
    if !graphviz {
        println!("commands: Graphviz is not installed, so it is not run on what draw prints");
    }
    for table in plain_tables() {
        draws(folder, &table, graphviz)?;
        for (order, and) in [1, 2].into_iter().flat_map(|order| And::BOTH.map(|and| (order, and))) {
            draws_masked(folder, &table, order, and, graphviz)?;
            draws(folder, &masked_with(and, order, &table)?, false)?;
        }
    }
    for table in random_tables() {
        draws(folder, &table, graphviz)?;
    }
    looks(folder)?;
    limits(folder)?;
    not_drawn(folder)?;
    bad_arguments(folder)?;
    outputs(folder)
}

/// The samples, and tables with every plain kind, a wire that is both operands, outputs of one
/// wire, inputs that nothing takes, no gates.
fn plain_tables() -> Vec<Vec<u8>> {
    let all = [
        not(0),
        xor(0, 0),
        and(3, 1),
        constant(1),
        or(5, 5),
        xor(4, 6),
        constant(0),
        and(1, 1),
        or(0, 9),
        not(10),
    ];
    let mut circuits = vec![
        Circuit::new(2, &all, &[7, 7, 0, 8, 11]),
        Circuit::new(1, &[], &[0]),
        Circuit::new(3, &[], &[2, 2, 0]),
        Circuit::new(12, &[constant(1)], &[12; 12]),
        Circuit::new(1, &[not(0), not(1), not(2)], &[3, 1]),
    ];
    circuits.extend(samples().map(|sample| sample.circuit));
    circuits.iter().map(Circuit::bytes).collect()
}

/// Tables that cannot be masked.
fn random_tables() -> [Vec<u8>; 2] {
    [Circuit::new(1, &[random()], &[1, 1]).bytes(), Circuit::new(2, &every_kind(), &[7, 2]).bytes()]
}

/// A gate of each kind, over two inputs.
fn every_kind() -> [Gate; 6] {
    [random(), not(2), xor(3, 3), and(2, 0), constant(1), or(5, 6)]
}

/// What a graph says, in its order: nodes with their labels, edges, and boxes with their labels and
/// nodes.
#[derive(Debug, Default, PartialEq, Eq)]
struct Graph {
    nodes: Vec<(String, String)>,
    edges: Vec<String>,
    boxes: Vec<(String, Vec<String>)>,
}

/// What stands between a beginning and an end.
fn between<'a>(line: &'a str, beginning: &str, end: &str) -> Option<&'a str> {
    line.strip_prefix(beginning)?.strip_suffix(end)
}

/// A node's name, its label, and how it looks.
fn node(line: &str) -> Option<(&str, &str, &str)> {
    let (name, rest) = line.trim_start().strip_suffix(']')?.split_once(" [label=\"")?;
    let (label, look) = rest.split_once("\", ")?;
    Some((name, label, look))
}

impl Graph {
    /// Reads what `draw` printed, line by line; no line may be left over.
    fn read(text: &str) -> Result<Self, String> {
        let mut graph = Graph::default();
        // The name of the box that is open.
        let mut open = None;
        let body = between(text, "digraph table {\n", "}\n").ok_or("it is no digraph")?;
        for line in body.lines() {
            let known = if let Some((name, label, _)) = node(line) {
                graph.nodes.push((name.into(), label.into()));
                if let (Some(_), Some((_, names))) = (open, graph.boxes.last_mut()) {
                    names.push(name.into());
                }
                true
            } else if let Some(name) = open {
                if let Some(label) = between(line, "    label=\"", "\"") {
                    graph.boxes.push((label.into(), Vec::new()));
                    label.split(' ').next() == Some(name)
                } else {
                    open = None;
                    line == "  }"
                }
            } else if line.contains(" -> ") {
                graph.edges.push(line.trim_start().into());
                true
            } else {
                open = between(line, "  subgraph cluster_", " {");
                let others =
                    ["  rankdir=LR", "  ranksep=", "  edge [", "  label=\"masked at order "];
                open.is_some() || others.iter().any(|other| line.starts_with(other))
            };
            if !known {
                return Err(format!("the line '{line}' is not known"));
            }
        }
        Ok(graph)
    }

    /// The graph of a table, without boxes.
    fn of(table: &[u8]) -> Self {
        let circuit = Circuit::read(table);
        let mut graph = Graph::default();
        let input = |wire| (format!("w{wire}"), format!("w{wire}"));
        graph.nodes.extend((0..circuit.inputs).map(input));
        for (wire, &(kind, left, right)) in (circuit.inputs..).zip(&circuit.gates) {
            let (word, operands) = match kind {
                NOT => ("NOT", vec![left]),
                XOR => ("XOR", vec![left, right]),
                AND => ("AND", vec![left, right]),
                OR => ("OR", vec![left, right]),
                CONSTANT => (["CONSTANT 0", "CONSTANT 1"][usize::from(left)], vec![]),
                _ => ("RANDOM", vec![]),
            };
            graph.nodes.push((format!("w{wire}"), format!("{word}\\nw{wire}")));
            graph.edges.extend(operands.iter().map(|operand| format!("w{operand} -> w{wire}")));
        }
        for (output, wire) in circuit.outputs.iter().enumerate() {
            graph.nodes.push((format!("out{output}"), format!("out{output}")));
            graph.edges.push(format!("w{wire} -> out{output}"));
        }
        graph
    }

    /// The graph of a plain table masked at an order. A gate's box has the wires that come with it,
    /// told by the sizes with and without it.
    fn masked(table: &[u8], order: u8, and: And) -> Result<Self, String> {
        let plain = Circuit::read(table);
        let mut graph = Graph::of(&masked_with(and, order, table)?);
        let n = 2 * usize::from(order) + 1;
        let mut sizes = vec![n; usize::from(plain.inputs)];
        let wires = |gates: usize| {
            let first = Circuit::new(plain.inputs, &plain.gates[..gates], &[0]);
            let sizes = model::forecast(&first.bytes(), order);
            sizes.map_or(0, |sizes| sizes.wires as usize)
        };
        sizes.extend((0..plain.gates.len()).map(|gate| wires(gate + 1) - wires(gate)));
        sizes.extend(plain.outputs.iter().map(|_| n));
        let listing = model::listing(table);
        let lines = listing.lines().filter(|line| !line.starts_with("inputs ")).map(String::from);
        let labels = (0..plain.inputs).map(|wire| format!("w{wire}")).chain(lines);
        let mut names = graph.nodes.iter().map(|(name, _)| name.clone());
        graph.boxes = labels
            .zip(sizes)
            .map(|(label, size)| (label, names.by_ref().take(size).collect()))
            .collect();
        Ok(graph)
    }
}

/// The number of wires of a table.
fn wires(table: &[u8]) -> usize {
    let circuit = Circuit::read(table);
    usize::from(circuit.inputs) + circuit.gates.len()
}

/// A table is drawn, or is told to have too many wires.
fn draws(folder: &Folder, table: &[u8], graphviz: bool) -> Result<(), String> {
    folder.write("table", table)?;
    let ran = folder.run(&["draw", "table"])?;
    match wires(table) {
        wires if wires > MOST_DRAWN => is_too_large(&ran, "'table' has", wires),
        _ => is_drawn(folder, &ran, &Graph::of(table), graphviz),
    }
}

/// The same with a table masked at an order, which the graph's title tells.
fn draws_masked(
    folder: &Folder,
    table: &[u8],
    order: u8,
    and: And,
    graphviz: bool,
) -> Result<(), String> {
    folder.write("table", table)?;
    let ran = folder.run(&with_and(and, &["draw", "--order", &order.to_string(), "table"]))?;
    let wires = wires(&masked_with(and, order, table)?);
    if wires > MOST_DRAWN {
        let beginning = format!("'table' masked at order {order} would have");
        return is_too_large(&ran, &beginning, wires);
    }
    let title = format!("\n  label=\"masked at order {order}, AND: {}; ", and.name());
    ensure(ran.out.contains(&title), &ran, "the title is another")?;
    is_drawn(folder, &ran, &Graph::masked(table, order, and)?, graphviz)
}

fn is_too_large(ran: &Ran, beginning: &str, wires: usize) -> Result<(), String> {
    let told = format!("{beginning} {wires} wires, and at most 2,000 can be drawn\n");
    ensure(ran.is_ended(1, &told), ran, &told)
}

/// What was printed is this graph, and Graphviz draws all of it without a warning.
fn is_drawn(folder: &Folder, ran: &Ran, due: &Graph, graphviz: bool) -> Result<(), String> {
    ensure(ran.is_done(), ran, "it is not drawn")?;
    let graph = Graph::read(&ran.out).map_err(|text| format!("FAILED: {text}\n{ran:?}"))?;
    ensure(graph == *due, ran, &format!("it is not the graph {due:?}"))?;
    if !graphviz {
        return Ok(());
    }
    folder.write("graph", ran.out.as_bytes())?;
    let drawn = Ran::of(Command::new("dot").arg("-Tsvg").arg(folder.path("graph")))?;
    ensure(drawn.is_done(), &drawn, "Graphviz does not draw it")?;
    let counts = ["node", "edge", "cluster"]
        .map(|class| drawn.out.matches(&format!(" class=\"{class}\"")).count());
    let due = [due.nodes.len(), due.edges.len(), due.boxes.len()];
    let told = format!("Graphviz draws {counts:?} nodes, edges and boxes, and not {due:?}");
    ensure(counts == due, ran, &told)
}

/// Each kind has a look of its own.
fn looks(folder: &Folder) -> Result<(), String> {
    folder.write("table", &Circuit::new(2, &every_kind(), &[7, 2]).bytes())?;
    let ran = folder.run(&["draw", "table"])?;
    let mut looks: HashMap<&str, &str> = HashMap::new();
    for (name, label, look) in ran.out.lines().filter_map(node) {
        let kind = match label.split_once("\\n") {
            Some((kind, _)) => kind,
            None => name.trim_end_matches(char::is_numeric),
        };
        let same = *looks.entry(kind).or_insert(look) == look;
        ensure(same, &ran, "gates of one kind look otherwise")?;
    }
    let mut all: Vec<&str> = looks.into_values().collect();
    all.sort_unstable();
    all.dedup();
    ensure(all.len() == 8, &ran, "inputs, outputs and six kinds have not eight looks")
}

/// Exactly 2,000 wires are drawn, and one more is not.
fn limits(folder: &Folder) -> Result<(), String> {
    let nots =
        |count: u16| Circuit::new(1, &(0..count).map(not).collect::<Vec<_>>(), &[count, 0]).bytes();
    for table in [nots(1_999), nots(2_000), nots(65_534), and_chain(1_998), and_chain(1_999)] {
        draws(folder, &table, false)?;
    }
    for inputs in [2_000, 2_001, 65_535] {
        draws(folder, &Circuit::new(inputs, &[], &[inputs - 1]).bytes(), false)?;
    }
    draws(folder, &Circuit::new(1, &[], &[0; 65_535]).bytes(), false)?;
    for (order, count) in [(1, 1_997), (1, 1_998), (1, 65_532), (15, 1_969), (15, 1_970)] {
        draws_masked(folder, &nots(count), order, And::Isw, false)?;
    }
    for (order, and) in [11, 12, 15].into_iter().flat_map(|order| And::BOTH.map(|and| (order, and)))
    {
        draws_masked(folder, &the_and(), order, and, false)?;
    }
    let name = "a\\ntable \"%s\"";
    folder.write(name, &nots(2_000))?;
    is_too_large(&folder.run(&["draw", name])?, &format!("'{name}' has"), 2_001)
}

/// Refused tables and orders: the table first, as in `mask`, and all before the number of wires.
fn not_drawn(folder: &Folder) -> Result<(), String> {
    let cut = &and_chain(2_731)[1..];
    for (table, told) in [
        (&[2, 0, 1][..], "refused 1: "),
        (cut, "refused 1: "),
        (&vec![1; 458_747], "refused 1: "),
        (&Circuit::new(0, &[], &[0]).bytes(), "refused 2: "),
        (&Circuit::new(2, &[(6, 0, 0)], &[2]).bytes(), "refused 3 at gate 0: "),
        (&Circuit::new(2, &[and(0, 1), and(0, 4)], &[2]).bytes(), "refused 4 at gate 1: "),
        (&Circuit::new(2, &[and(0, 1)], &[2, 3]).bytes(), "refused 5 at output 1: "),
    ] {
        folder.write("table", table)?;
        for arguments in [&["draw", "table"][..], &["draw", "--order", "0", "table"]] {
            let ran = folder.run(arguments)?;
            ensure(ran.is_ended(1, &format!("table: {told}")), &ran, told)?;
        }
    }
    for (table, order, told) in [
        (the_and(), "0", "refused 6: the order is not 1 to 15\n"),
        (the_and(), "16", "refused 6: the order is not 1 to 15\n"),
        (the_and(), "99999999999999999999", "refused 6: the order is not 1 to 15\n"),
        (random_tables()[1].clone(), "16", "refused 6: "),
        (random_tables()[1].clone(), "1", "refused 7 at gate 0: "),
        (and_chain(2_731), "1", "refused 8: masked at order 1 the table would have 65550 wires "),
    ] {
        folder.write("table", &table)?;
        for and in And::BOTH {
            let ran = folder.run(&with_and(and, &["draw", "--order", order, "table"]))?;
            ensure(ran.is_ended(1, &format!("table: {told}")), &ran, told)?;
        }
    }
    Ok(())
}

fn bad_arguments(folder: &Folder) -> Result<(), String> {
    folder.write("table", &the_and())?;
    for arguments in [
        &["draw"][..],
        &["draw", ""],
        &["draw", "table", "table"],
        &["draw", "no such table"],
        &["draw", "sub folder"],
        &["draw", "--don", "table"],
        &["draw", "--dom", "table"],
        &["draw", "--order"],
        &["draw", "--order", "1"],
        &["draw", "--order", "", "table"],
        &["draw", "--order", "one", "table"],
        &["draw", "--order", "-1", "table"],
        &["draw", "--order", "1 ", "table"],
        &["draw", "--order", "1", "no such table"],
    ] {
        let ran = folder.run(arguments)?;
        ensure(ran.is_ended(2, "fantzori: "), &ran, "it is not told as an error in one line")?;
    }
    Ok(())
}

/// Standard output that is full or closed, and a reader that stops reading.
fn outputs(folder: &Folder) -> Result<(), String> {
    folder.write("table", &Circuit::new(1, &[not(0); 1_999], &[0; 60_000]).bytes())?;
    for script in ["\"$@\" >/dev/full", "\"$@\" >&-"] {
        let ran = folder.script(script, &["draw", "table"])?;
        ensure(ran.is_ended(2, "fantzori: "), &ran, "a full output is not told in one line")?;
    }
    let ran = folder.script("\"$@\" | head -n 1", &["draw", "table"])?;
    let first = "digraph table {\n";
    ensure(ran.is_done() && ran.out == first, &ran, "the first line is another")
}
