//! The picture of a machine of at most 8 processors in which no reference is open.

use crate::simulator::Machine;
use std::fmt::Write;

const STYLE: &str = "text{font:11px monospace}rect{fill:#fff;stroke:#444}line{stroke:#999}.page{stroke:none}\
    .request{fill:#1f4e9c}.record{fill:#207020}.reply{fill:#a02020}\
    .cell .request{text-anchor:end}.cell .record{text-anchor:middle}.heading,.column{font-weight:bold}\
    .held1{fill:#ddd}.held2{fill:#bbb}.held3{fill:#999}.held4{fill:#888}";

const LEGEND: [&str; 4] = [
    "Requests go right, replies go left; of those at one place, the first to go on is on top.",
    "wire W: an output, with its wait buffer and requests, and the input beside it, with replies",
    "{P Q ..}: the processors for which a message stands, in the order in which they are served",
    "Q waits for P: add V: Q will find what this function makes of the value that P finds",
];

/// A column of boxes, each with a title.
struct Column {
    name: String,
    is_stage: bool,
    left: usize,
    width: usize,
    titles: Vec<String>,
}

/// The upper side of a row of boxes, and its middle.
fn top(row: usize) -> usize {
    50 + 26 * row
}

fn middle(row: usize) -> usize {
    top(row) + 13
}

/// The columns of a machine: its processors, the stages of its switches, and its modules.
fn columns(machine: &Machine) -> Vec<Column> {
    let (k, n) = (machine.config.k, machine.processors.len());
    let processors = machine.processors.iter().enumerate();
    let titles = processors.map(|(p, processor)| format!("{p} {} {:08x}", processor.status, processor.pc)).collect();
    let mut columns = vec![("processors".to_string(), titles)];
    columns.extend((0..k).map(|stage| (format!("stage {stage}"), (0..n).map(|wire| format!("wire {wire}")).collect())));
    columns.push(("modules".to_string(), (0..n).map(|module| format!("module {module}")).collect()));
    let mut left = 10;
    let column = |(number, (name, titles)): (usize, (String, Vec<String>))| {
        let letters = titles.iter().map(String::len).max().unwrap_or(0);
        let width = 7 * letters.clamp(10, 100) + 12;
        left += width + 50;
        Column {
            name,
            is_stage: number > 0 && number <= usize::from(k),
            left: left - width - 50,
            width,
            titles,
        }
    };
    columns.into_iter().enumerate().map(column).collect()
}

pub fn picture(machine: &Machine, steps: usize) -> String {
    let mut out = String::new();
    push_picture(&mut out, machine, steps).expect("a string can be written");
    out
}

fn push_picture(out: &mut String, machine: &Machine, steps: usize) -> std::fmt::Result {
    let (config, n) = (machine.config, machine.processors.len());
    assert!(n <= 8 && machine.open == 0, "more than the baseline can draw");
    let columns = columns(machine);
    let width = columns.last().map_or(0, |last| last.left + last.width + 10).max(660);
    let height = top(n) + 70;
    write!(out, "<svg xmlns='http://www.w3.org/2000/svg' width='{width}' height='{height}'")?;
    writeln!(out, " viewBox='0 0 {width} {height}'>\n<style>{STYLE}</style>")?;
    writeln!(out, "<rect x='0' y='0' width='{width}' height='{height}' class='page'/>")?;
    write!(out, "<text x='10' y='18' class='heading'>machine k {} c {} b {} r 1", config.k, config.c, config.b)?;
    writeln!(out, " after {steps} steps</text>")?;
    for (from, to) in columns.iter().zip(&columns[1..]) {
        for row in 0..n {
            let before = if to.is_stage { row >> 1 | row << (config.k - 1) & (n - 1) } else { row };
            let (x1, y1) = (from.left + from.width, middle(before));
            writeln!(out, "<line x1='{x1}' y1='{y1}' x2='{}' y2='{}'/>", to.left, middle(row))?;
        }
    }
    for Column { name, is_stage, left, width, titles } in &columns {
        writeln!(out, "<text x='{left}' y='42' class='column'>{name}</text>")?;
        for (row, title) in titles.iter().enumerate() {
            let (x, y) = (left + 6, top(row));
            if !is_stage || row % 2 == 0 {
                let height = if *is_stage { 48 } else { 22 };
                writeln!(out, "<rect x='{left}' y='{y}' width='{width}' height='{height}' class='box'/>")?;
            }
            write!(out, "<text y='{}' class='cell'><tspan x='{x}' dy='0' class='title'>{title}</tspan>", y + 14)?;
            writeln!(out, "</text>")?;
        }
    }
    write!(out, "<text y='{}'>", top(n))?;
    for line in LEGEND {
        write!(out, "<tspan x='10' dy='14' class='legend'>{line}</tspan>")?;
    }
    writeln!(out, "</text>\n</svg>")
}
