//! Times of the proved library beside the reference implementation, msgpack-c and libcbor. What is compared: README.md.

mod before;
mod content;
mod others;
mod texts;
mod timing;

use content::{integers, interned, nested, passages, texts, twin_panel};
use others::{Format, Other};
use reference::generate::{shortest, Node};
use reference::{check, fill, measure, write};
use std::hint::black_box;
use std::time::Instant;
use timing::{best, milliseconds, ratio, Task};

/// A document, its table, and room for writing it.
struct Document {
    data: Vec<u8>,
    table: Vec<u32>,
    rows: usize,
    out: Vec<u8>,
}

impl Document {
    fn new(content: &Node) -> Self {
        let data = shortest(content);
        let measured = native::measure(&data);
        assert_eq!(native::number(measured), 0);
        let rows = native::beside(measured) as usize;
        let mut table = vec![0; 6 * rows];
        assert_eq!(native::fill(&data, &mut table), measured);
        let mut document = Document { out: vec![0; data.len()], data, table, rows };
        assert_eq!(document.write(), document.data.len() as u64);
        assert!(document.out == document.data);
        document.as_before();
        document
    }

    fn measure(&self) -> u64 {
        native::measure(black_box(&self.data))
    }

    fn measure_by_reference(&self) -> usize {
        measure::measure(black_box(&self.data)).unwrap()
    }

    fn fill(&mut self) -> u64 {
        native::fill(black_box(&self.data), &mut self.table)
    }

    fn fill_by_reference(&mut self) -> usize {
        fill::fill(black_box(&self.data), &mut self.table).unwrap()
    }

    fn check(&self) -> u64 {
        native::check(black_box(&self.table), self.rows, &self.data)
    }

    fn check_by_reference(&self) -> bool {
        check::check(black_box(&self.table), self.rows, &self.data).is_ok()
    }

    fn write(&mut self) -> u64 {
        native::write(black_box(&self.table), self.rows, &self.data, &mut self.out)
    }

    fn write_by_reference(&mut self) -> usize {
        write::write(black_box(&self.table), self.rows, &self.data, &mut self.out).unwrap()
    }

    /// The other checkout's library, if one was named, answers the same and lays the same table: else its times would be of other work, and
    /// its table of no use to ours.
    fn as_before(&mut self) {
        if before::IS_NAMED {
            assert_eq!(self.measure_before(), self.measure());
            let mut table = vec![0; self.table.len()];
            assert_eq!(before::fill(&self.data, &mut table), self.measure());
            assert!(table == self.table);
            assert_eq!(self.check_before(), self.check());
            assert_eq!(self.write_before(), self.data.len() as u64);
            assert!(self.out == self.data);
        }
    }

    fn measure_before(&self) -> u64 {
        before::measure(black_box(&self.data))
    }

    fn fill_before(&mut self) -> u64 {
        before::fill(black_box(&self.data), &mut self.table)
    }

    fn check_before(&self) -> u64 {
        before::check(black_box(&self.table), self.rows, &self.data)
    }

    fn write_before(&mut self) -> u64 {
        before::write(black_box(&self.table), self.rows, &self.data, &mut self.out)
    }
}

/// Keeps a result from being left out.
fn spend<T>(result: T) {
    black_box(result);
}

/// The operations that are timed. Filling measures first: its time has that in it.
const OPERATIONS: [&str; 4] = ["measure", "fill", "check", "write"];

/// Times of one document by the library, by the reference and by the library of another checkout, of each operation.
struct Times {
    ours: [f64; 4],
    reference: [f64; 4],
    before: [f64; 4],
}

/// Nine rounds over all tasks, those of others too; the best of each.
fn timed(document: &mut Document, others: &[Other]) -> (Times, Vec<[f64; 2]>) {
    let document = &std::cell::RefCell::new(document);
    // of each operation the reference, ours and, if there is one, the other checkout's, one behind the other
    let mut tasks: Vec<Task> = vec![
        Box::new(|| spend(document.borrow().measure_by_reference())),
        Box::new(|| spend(document.borrow().measure())),
        Box::new(|| spend(document.borrow().measure_before())),
        Box::new(|| spend(document.borrow_mut().fill_by_reference())),
        Box::new(|| spend(document.borrow_mut().fill())),
        Box::new(|| spend(document.borrow_mut().fill_before())),
        Box::new(|| spend(document.borrow().check_by_reference())),
        Box::new(|| spend(document.borrow().check())),
        Box::new(|| spend(document.borrow().check_before())),
        Box::new(|| spend(document.borrow_mut().write_by_reference())),
        Box::new(|| spend(document.borrow_mut().write())),
        Box::new(|| spend(document.borrow_mut().write_before())),
    ];
    let each = if before::IS_NAMED { 3 } else { 2 };
    if !before::IS_NAMED {
        (0..4).rev().for_each(|operation| drop(tasks.remove(3 * operation + 2)));
    }
    for other in others {
        tasks.push(Box::new(|| spend(other.read())));
        tasks.push(Box::new(|| spend(other.write())));
    }
    let times = best(&mut tasks);
    let [reference, ours] = [0, 1].map(|by| [0, 1, 2, 3].map(|operation| times[each * operation + by]));
    let before = [0, 1, 2, 3].map(|operation| if before::IS_NAMED { times[each * operation + 2] } else { f64::NAN });
    let pairs = times[4 * each..].chunks(2).map(|pair| [pair[0], pair[1]]).collect();
    (Times { ours, reference, before }, pairs)
}

/// A target, and whether it was met.
struct Target {
    what: String,
    most: f64,
    was: f64,
}

/// One operation of the library over and over, for a profiler: `bench loop WORKLOAD measure|fill|check|write SECONDS`.
fn repeat(name: &str, operation: &str, seconds: f64) {
    let (_, content) = all().into_iter().find(|(known, _)| *known == name).expect("a workload");
    let mut document = Document::new(&content());
    let (start, mut times) = (Instant::now(), 0);
    while start.elapsed().as_secs_f64() < seconds {
        times += 1;
        match operation {
            "measure" => spend(document.measure()),
            "fill" => spend(document.fill()),
            "check" => spend(document.check()),
            "write" => spend(document.write()),
            _ => panic!("no operation {operation}"),
        }
    }
    println!("{operation} {name}: {} ms", milliseconds(start.elapsed().as_secs_f64() / times as f64));
}

fn main() {
    let words: Vec<String> = std::env::args().skip(1).collect();
    if let [_, name, operation, seconds] = &words[..] {
        return repeat(name, operation, seconds.parse().expect("seconds"));
    }
    let [msgpack, cbor] = others::versions();
    println!("msgpack-c {msgpack}, libcbor {cbor}; load {}", timing::load());
    println!("best of nine rounds in one run; milliseconds of the processor, and ratios of them\n");
    let mut targets = Vec::new();
    workloads(&mut targets);
    growth(&mut targets);
    registries();
    smallest();
    texts::texts(&mut targets);
    println!("\nTargets\n");
    for Target { what, most, was } in targets {
        println!("{} {was:5.2}  at most {most:4.2}  {what}", if was <= most { "met   " } else { "MISSED" });
    }
    println!("\nload at the end {}", timing::load());
}

type Workload = (&'static str, fn() -> Node);

/// The contents by name.
fn all() -> [Workload; 8] {
    [
        ("passages", || passages(100_000)),
        ("interned", || interned(62, 100_000)),
        ("twin panel", || twin_panel(100_000)),
        ("texts", || texts(40_000, 1)),
        ("long texts", || texts(4_000, 60)),
        ("integers", || integers(200_000, 64)),
        ("wide integers", || integers(200_000, 128)),
        ("nested", || nested(12_000)),
    ]
}

/// msgpack and CBOR have no foreign documents, and no integers of more than 64 bits.
fn is_shared(name: &str) -> bool {
    !matches!(name, "twin panel" | "wide integers")
}

/// Two tables: measuring and filling beside what the others parse, and checking and writing.
fn workloads(targets: &mut Vec<Target>) {
    println!("{:13} {:>8} {:>8} | {:>25} | {:>25} | {:>14}", "", "", "", "measure", "fill", "parse");
    println!(
        "{:13} {:>8} {:>8} | {:>6} {:>6} {:>5} {:>5} | {:>6} {:>6} {:>5} {:>5} | {:>7} {:>6}",
        "workload", "bytes", "rows", "ours", "ref", "/ref", "/msg", "ours", "ref", "/ref", "/msg", "msgpack", "cbor"
    );
    let (mut lines, mut ratios) = (Vec::new(), Vec::new());
    for (name, content) in all() {
        let content = content();
        let mut document = Document::new(&content);
        let formats = if is_shared(name) { &[Format::Msgpack, Format::Cbor][..] } else { &[] };
        let others: Vec<Other> = formats.iter().map(|format| Other::new(*format, &content)).collect();
        let (Times { ours, reference, before }, others) = timed(&mut document, &others);
        let [msgpack, cbor] = if is_shared(name) { [others[0], others[1]] } else { [[f64::NAN; 2]; 2] };
        let [measure, fill, check, write] = ours;
        let against = |operation: usize| ratio(ours[operation] / reference[operation]);
        println!(
            "{name:13} {:8} {:8} | {:>6} {:>6} {:>5} {:>5} | {:>6} {:>6} {:>5} {:>5} | {:>7} {:>6}",
            document.data.len(),
            document.rows,
            milliseconds(measure),
            milliseconds(reference[0]),
            against(0),
            ratio(measure / msgpack[0]),
            milliseconds(fill),
            milliseconds(reference[1]),
            against(1),
            ratio(fill / msgpack[0]),
            milliseconds(msgpack[0]),
            milliseconds(cbor[0]),
        );
        lines.push(format!(
            "{name:13} | {:>6} {:>6} {:>5} {:>5} | {:>6} {:>6} {:>5} {:>5} {:>7} {:>6}",
            milliseconds(check),
            milliseconds(reference[2]),
            against(2),
            ratio(check / fill),
            milliseconds(write),
            milliseconds(reference[3]),
            against(3),
            ratio(write / fill),
            milliseconds(msgpack[1]),
            milliseconds(cbor[1]),
        ));
        let mut target =
            |what: &str, most: f64, was: f64| targets.push(Target { what: format!("{name}: {what}"), most, was });
        if ["passages", "interned", "integers", "nested"].contains(&name) {
            target("measure / msgpack-c's parse", 1.0, measure / msgpack[0]);
        }
        target("fill / the reference's fill", 1.0, fill / reference[1]);
        if before::IS_NAMED && name.ends_with("texts") {
            // as fast, but for what the same code shows in two places
            target("measure / that of the other checkout", 1.03, measure / before[0]);
            target("fill / that of the other checkout", 1.03, fill / before[1]);
        }
        let to_before = |operation: usize| ratio(ours[operation] / before[operation]);
        ratios.push(format!("{name:13} | {}", columns(7, [0, 1, 2, 3].map(to_before))));
        target("check / fill", 1.5, check / fill);
        target("write / fill", 1.0, write / fill);
    }
    println!("\n{:13} | {:>25} | {:>40}", "", "check", "write");
    println!(
        "{:13} | {:>6} {:>6} {:>5} {:>5} | {:>6} {:>6} {:>5} {:>5} {:>7} {:>6}",
        "workload", "ours", "ref", "/ref", "/fill", "ours", "ref", "/ref", "/fill", "msgpack", "cbor"
    );
    lines.iter().for_each(|line| println!("{line}"));
    if before::IS_NAMED {
        println!("\nOurs to the library of the other checkout\n");
        println!("{:13} | {}", "workload", columns(7, OPERATIONS));
        ratios.iter().for_each(|line| println!("{line}"));
    }
}

/// Numbers, or what heads them, in columns of so many characters.
fn columns<T: std::fmt::Display>(width: usize, cells: [T; 4]) -> String {
    cells.map(|cell| format!("{cell:>width$}")).join(" ")
}

/// Time per byte of passages as the document grows.
fn growth(targets: &mut Vec<Target>) {
    println!("\nGrowth: passages, nanoseconds per byte of the document\n");
    let heads = columns(7, OPERATIONS);
    println!("{:>9} {:>8} | {heads} | reference {heads}", "bytes", "rows");
    let mut seen = [[f64::MAX, 0.0]; 4];
    for bytes in [10_000, 100_000, 1_000_000, 4_000_000, 16_777_200] {
        let mut document = Document::new(&passages(bytes / 20));
        let (Times { ours, reference, .. }, _) = timed(&mut document, &[]);
        let per = 1e9 / document.data.len() as f64;
        let said = |times: [f64; 4]| columns(7, times.map(|time| format!("{:.2}", time * per)));
        println!("{:9} {:8} | {} | {:9} {}", document.data.len(), document.rows, said(ours), "", said(reference));
        for (range, time) in seen.iter_mut().zip(ours) {
            *range = [range[0].min(time * per), range[1].max(time * per)];
        }
    }
    for (what, [least, most]) in OPERATIONS.iter().zip(seen) {
        targets.push(Target {
            what: format!("growth: {what}, slowest / fastest per byte, 10 KB to 16 MB"),
            most: 1.2,
            was: most / least,
        });
    }
}

/// References into registries of several sizes. No target: the time is reported as it is.
fn registries() {
    println!(
        "\nRegistries: 2,000 passages with references, nanoseconds per reference of each operation on the whole\n"
    );
    let heads = columns(9, OPERATIONS);
    println!("{:>9} | {heads} | reference {heads}", "entries");
    for entries in [62, 1_000, 100_000] {
        let mut document = Document::new(&interned(entries, 2_000));
        let (Times { ours, reference, .. }, _) = timed(&mut document, &[]);
        let said = |times: [f64; 4]| columns(9, times.map(|time| format!("{:.0}", time * 1e9 / 2_000.0)));
        println!("{entries:9} | {} | {:9} {}", said(ours), "", said(reference));
    }
}

/// One passage alone: what a call costs.
fn smallest() {
    let mut document = Document::new(&passages(1));
    let (Times { ours, reference, .. }, _) = timed(&mut document, &[]);
    println!("\nOne passage, {} bytes, nanoseconds\n", document.data.len());
    let heads = columns(7, OPERATIONS);
    println!("{heads} | reference {heads}");
    let said = |times: [f64; 4]| columns(7, times.map(|time| format!("{:.0}", time * 1e9)));
    println!("{} | {:9} {}", said(ours), "", said(reference));
}
