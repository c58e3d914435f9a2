//! Texts that the proved reader reads and the proved writer writes again where they are accepted, and the plan's line where they are not;
//! records that it writes, and buffers on either side of a text's length; sets of which it says how long the superframe is; a table's
//! lines, read and written again; and sets by fixed priority. What must be printed stands in tests/cases/stdout, from documents 01 and 02 and
//! not from this program.
//! Usage: cases FOLDER; of its files `texts`, `sets`, `lines` and `ranked` each line is a label, a tab, and the text in one line.

use compare::{read, Fault, Lined, Record, Written};
use second::{Set, State};
use std::path::Path;

/// The byte that one of the table stands for: `|` a tab, `$` LF, `%` CR, `@` NUL, `<` and `>` 128 and 255, `{`, `}` and `~` the three of a
/// byte order mark; every other byte is itself.
fn meant(b: u8) -> u8 {
    match b {
        b'|' => 9,
        b'$' => 10,
        b'%' => 13,
        b'@' => 0,
        b'<' => 128,
        b'>' => 255,
        b'{' => 239,
        b'}' => 187,
        b'~' => 191,
        _ => b,
    }
}

/// A refusal: number, line, field.
fn told(fault: Fault) -> String {
    format!("{}\t{}\t{}", fault.refusal, fault.line, fault.field)
}

/// The reader's number, line and field, and how many bytes the set is written in; 0 where it is refused, or is not this text again. Of a
/// refused text also what the plan program prints, with `|` for a tab and `$` for LF.
fn text_case(label: &str, text: &[u8]) {
    let (fault, set) = read(text);
    let mut out = vec![0; 65536];
    let n = Record::new(&set).write(&mut out).length;
    print!("{label}\t{}\t{}", told(fault), if out[..n] == *text { n } else { 0 });
    if fault.refusal != 0 {
        let n = compare::plan(text, &mut out).length;
        print!("\t{}", String::from_utf8_lossy(&out[..n]).replace('\t', "|").replace('\n', "$"));
    }
    println!();
}

/// Of a set's superframe number, line and field, hyper-period, and how many numbers; a table of one number less is refused with 10.
fn set_case(label: &str, text: &[u8]) {
    let a = compare::text_superframe_size(text);
    let mut table = vec![0; a.numbers.saturating_sub(1)];
    let short = compare::text_superframe(text, &mut table).fault.refusal;
    println!("{label}\t{}\t{}\t{}\t{short}", told(a.fault), a.hyper, a.numbers);
}

/// Of a table's lines number and line, and how many numbers; 0 where they are refused, or are not these lines again.
fn lines_case(label: &str, text: &[u8]) {
    let (mut table, mut out) = (vec![0; text.len()], vec![0; text.len()]);
    let Lined { refusal, line, length } = compare::table_read(text, &mut table);
    let n = compare::table_write(&table[..length], &mut out).length;
    println!("{label}\t{refusal}\t{line}\t{}", if out[..n] == *text { length } else { 0 });
}

/// Of a set by fixed priority number, line and field, 1 if it is admitted, how many flows are judged, their bounds, and slot and flow of
/// each send and of each drop up to slot 11.
fn ranked_case(label: &str, text: &[u8]) {
    let verdict = compare::text_fixed_verdict(text);
    let record = Record::new(&read(text).1);
    let bounds = (0..).map(|k| compare::text_fixed_bounds(text, k)).take_while(|answer| answer.fault.refusal == 0);
    let bounds: Vec<String> = bounds.map(|answer| answer.bound.to_string()).collect();
    let (mut state, mut sends, mut drops) = (State::FRESH, Vec::new(), Vec::new());
    for t in 0..12 {
        let step = record.fixed_step(&state);
        sends.extend(step.sends.iter().map(|sent| format!("{t}:{}", sent.flow)));
        drops.extend(step.dropped.iter().map(|flow| format!("{t}:{flow}")));
        state = step.next;
    }
    let lists = [bounds, sends, drops].map(|list| list.join(" ")).join("\t");
    println!("{label}\t{}\t{}\t{}\t{lists}", told(verdict.fault), verdict.admitted, verdict.judged);
}

fn written(label: &str, set: &Set, size: usize) {
    let Written { fault, length } = Record::new(set).write(&mut vec![0; size]);
    println!("{label}\t{}\t{length}", told(fault));
}

/// A set of one flow, whose text has 26 bytes.
fn small() -> Set {
    read(b"set\t3\nflow\t10\t8\t0\t1\t1\t2\t3\n").1
}

/// The same flow in every place of the array, with this count of nodes, and this map and count of flows.
fn record_case(map: u16, count: u16, nodes: u16) {
    let mut set = small();
    set.map = map;
    set.count = count;
    let mut flow = set.flows[0];
    flow.nodes = nodes;
    set.flows = [flow; 64];
    written(&format!("record\t{map}\t{count}\t{nodes}"), &set, 4096);
}

/// One flow 1-LAST whose array goes on with these nodes behind the last one, of which this many count.
fn behind_case(last: u16, behind: u16, nodes: u16) {
    let mut set = small();
    set.flows[0].nodes = nodes;
    set.flows[0].route = [behind; 17];
    set.flows[0].route[..2].copy_from_slice(&[1, last]);
    written(&format!("behind\t{last}\t{behind}\t{nodes}"), &set, 4096);
}

/// Each line of a table of cases.
fn each(path: &Path, case: fn(&str, &[u8])) {
    let table = std::fs::read(path).expect("the table is read");
    for line in table.split(|b| *b == b'\n').filter(|line| !line.is_empty()) {
        let tab = line.iter().position(|b| *b == b'\t').expect("a label and a tab");
        let text: Vec<u8> = line[tab + 1..].iter().map(|b| meant(*b)).collect();
        case(&String::from_utf8_lossy(&line[..tab]), &text);
    }
}

fn main() {
    let folder = std::env::args().nth(1).expect("a folder");
    each(&Path::new(&folder).join("texts"), text_case);
    for size in [0, 25, 26, 27] {
        written(&format!("buffer\t{size}"), &small(), size);
    }
    let shapes = [(0, 0, 3), (0, 1, 18), (3, 0, 3), (3, 1, 1), (3, 1, 2), (3, 1, 3), (3, 1, 18), (3, 1, 65535), (3, 64, 3), (3, 65, 3), (3, 70, 3), (3, 70, 18)];
    for (map, count, nodes) in shapes {
        record_case(map, count, nodes);
    }
    for (last, behind) in [(2, 2), (0, 0), (2, 1)] {
        for nodes in [2, 3, 4] {
            behind_case(last, behind, nodes);
        }
    }
    each(&Path::new(&folder).join("sets"), set_case);
    each(&Path::new(&folder).join("lines"), lines_case);
    each(&Path::new(&folder).join("ranked"), ranked_case);
}
