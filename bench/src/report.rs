//! Measured rows, kept in a file for each layout, and the table printed of them.

use std::fmt;
use std::str::FromStr;

use crate::clock::Times;

const ABOUT: &str = "\
Microseconds a call, the median of many: this library's, then those of the separate implementation
in Rust. A ratio above 1.00 is marked. Copy is the time of copying the bytes that the call reads and
writes, as the limit to compare with. Wires are those of the masked table, in encode and decode the
share bits, in plain check, plain forecast and forecast / check those of the plain table. Growth is
the time for each wire at the largest size against the smallest. An AND takes 24, 75, 750 and 3,286
wires at order 1, 2, 7 and 15: at 15 the smallest tables have none. Rows with 5 or 6 kinds, the last
ones, are of tables with gates of all plain kinds, or of all kinds; the others have no constants and
no ORs. Rows with DOM are of the calls with the DOM AND, on tables that other rows have: the 2,730
ANDs, and those with 5 kinds.";

/// The calls of rows that compare two of the library's own calls.
pub const MAP_AGAINST_RUNS: &str = "map / 2 runs";
pub const FORECAST_AGAINST_CHECK: &str = "forecast / check";

/// What such a row should not exceed, and how its largest ratio is told.
const OWN: [(&str, f64, &str, &str); 2] = [
    (MAP_AGAINST_RUNS, 3.0, "A map", "two runs of the masked table"),
    (FORECAST_AGAINST_CHECK, 1.2, "A forecast", "a check of the same table"),
];

/// One call at one size; no order for a call that takes none.
#[derive(Clone, PartialEq)]
pub struct Row {
    pub call: String,
    pub order: Option<u8>,
    pub wires: usize,
    pub times: Times,
}

impl Row {
    pub fn new(call: &str, order: Option<u8>, wires: usize, times: Times) -> Self {
        Row { call: call.into(), order, wires, times }
    }

    /// The ratio as printed, with two digits.
    fn ratio(&self) -> f64 {
        (100.0 * self.times.ours / self.times.theirs).round() / 100.0
    }

    fn a_wire(&self) -> f64 {
        self.times.ours / self.wires as f64
    }

    /// Whether both are the same call at the same order, at whatever size.
    fn same_call(&self, other: &Row) -> bool {
        self.call == other.call && self.order == other.order
    }

    /// One of the largest tables, which stand together.
    fn is_largest(&self) -> bool {
        self.call.contains(',')
    }

    /// Whether both sides are the library's.
    fn is_own(&self) -> bool {
        OWN.iter().any(|own| own.0 == self.call)
    }

    /// The ratio that a row should not exceed.
    fn goal(&self) -> f64 {
        OWN.iter().find(|own| own.0 == self.call).map_or(1.0, |own| own.1)
    }
}

/// A row in a file: its parts, with tabs between them.
impl fmt::Display for Row {
    fn fmt(&self, f: &mut fmt::Formatter<'_>) -> fmt::Result {
        let Row { call, wires, times: Times { ours, theirs, copy }, .. } = self;
        write!(f, "{call}\t{}\t{wires}\t{ours}\t{theirs}\t{copy}", self.order.unwrap_or(0))
    }
}

fn number<T: FromStr>(text: &str) -> Result<T, String> {
    text.parse().map_err(|_| format!("no number: {text}"))
}

impl FromStr for Row {
    type Err = String;

    fn from_str(line: &str) -> Result<Self, String> {
        let parts: Vec<&str> = line.split('\t').collect();
        let [call, order, wires, ours, theirs, copy] = parts[..] else {
            return Err(format!("no row: {line}"));
        };
        let order: u8 = number(order)?;
        let times = Times { ours: number(ours)?, theirs: number(theirs)?, copy: number(copy)? };
        Ok(Row::new(call, (order > 0).then_some(order), number(wires)?, times))
    }
}

/// The same rows measured in several layouts, as one: the medians.
pub fn combined(layouts: &[Vec<Row>]) -> Result<Vec<Row>, String> {
    let Some((first, others)) = layouts.split_first() else {
        return Err("nothing was measured".into());
    };
    let mut rows = first.clone();
    for (at, row) in rows.iter_mut().enumerate() {
        let mut times = vec![row.times];
        for other in others {
            let same =
                other.get(at).filter(|other| row.same_call(other) && row.wires == other.wires);
            times.push(same.ok_or("the layouts have different rows")?.times);
        }
        let middle = |time: fn(&Times) -> f64| median(times.iter().map(time).collect());
        row.times = Times {
            ours: middle(|times| times.ours),
            theirs: middle(|times| times.theirs),
            copy: middle(|times| times.copy),
        };
    }
    Ok(rows)
}

fn median(mut times: Vec<f64>) -> f64 {
    times.sort_unstable_by(f64::total_cmp);
    let middle = times.len() / 2;
    if times.len().is_multiple_of(2) {
        (times[middle - 1] + times[middle]) / 2.0
    } else {
        times[middle]
    }
}

/// Prints the table and what stands out in it.
pub fn print(rows: &[Row], layouts: usize) {
    println!("{ABOUT}");
    println!(
        "Each time is the median over {layouts} places in memory to which the code was linked.\n"
    );
    println!("call              order  wires      ours      Rust      copy  ratio  growth");
    let (mut above, mut largest_growth) = (0, 0_f64);
    for (at, row) in rows.iter().enumerate() {
        let before = at.checked_sub(1).map(|before| &rows[before]);
        if before.is_some_and(|b| b.call != row.call && !(b.is_largest() && row.is_largest())) {
            println!();
        }
        let growth = growth(rows, at);
        largest_growth = largest_growth.max(growth.unwrap_or(0.0));
        if !row.is_own() && row.ratio() > 1.0 {
            above += 1;
        }
        println!("{}", text(row, growth));
    }
    let ratios = rows.iter().filter(|row| !row.is_own()).count();
    println!(
        "\n{above} of {ratios} ratios are above 1.00. The largest growth is {largest_growth:.2}."
    );
    for (call, goal, one, other) in OWN {
        let ratios = rows.iter().filter(|row| row.call == call).map(Row::ratio);
        if let Some(most) = ratios.reduce(f64::max) {
            println!("{one} costs at most {most:.2} times {other} (goal: {goal}).");
        }
    }
}

/// The growth of a call, at its largest size, from its smallest, which comes two rows before.
fn growth(rows: &[Row], at: usize) -> Option<f64> {
    let (small, large) = (&rows[at.checked_sub(2)?], &rows[at]);
    let grows = small.same_call(large) && !large.is_own();
    grows.then(|| large.a_wire() / small.a_wire())
}

fn text(row: &Row, growth: Option<f64>) -> String {
    let Row { call, wires, times, .. } = row;
    let order = row.order.map_or("-".into(), |order| order.to_string());
    let [ours, theirs, copy] = [times.ours, times.theirs, times.copy].map(|time| time / 1e3);
    let ratio = row.ratio();
    let growth = growth.map_or(String::new(), |growth| format!("{growth:.2}"));
    let mark =
        if ratio > row.goal() { format!("<-- above {:.2}", row.goal()) } else { String::new() };
    let text = format!(
        "{call:<17} {order:>5} {wires:>6} {ours:>9.2} {theirs:>9.2} {copy:>9.3} {ratio:>6.2} \
         {growth:>7} {mark}"
    );
    text.trim_end().to_string()
}
