//! The report of the job: page views that are printed at each tick, and the zip codes that updates set.
use std::collections::HashMap;
use std::fmt::Write;
use std::iter::Peekable;
use std::{env, fs};

/// A row: its time, its tag with the key between brackets, and its value.
#[derive(Clone, Copy)]
struct Row<'a> {
    time: u64,
    kind: &'a str,
    key: u32,
    value: i64,
}

fn row(line: &str) -> Row<'_> {
    let mut fields = line.split(',');
    let time = fields.next().unwrap().parse().unwrap();
    let tag = fields.next().unwrap();
    let value = fields.next().map_or(0, |field| field.parse().unwrap());
    let (kind, key) = match tag.strip_suffix(']').and_then(|tag| tag.split_once('[')) {
        Some((kind, key)) => (kind, key.parse().unwrap()),
        None => (tag, 0),
    };
    Row { time, kind, key, value }
}

fn next<'a>(sources: &mut [Peekable<impl Iterator<Item = Row<'a>>>]) -> Option<Row<'a>> {
    let times = sources.iter_mut().enumerate().filter_map(|(n, rows)| Some((rows.peek()?.time, n)));
    let (_, first) = times.min()?;
    sources[first].next()
}

fn main() {
    let texts: Vec<String> = env::args().skip(1).map(|name| fs::read_to_string(name).unwrap()).collect();
    let mut sources: Vec<_> = texts
        .iter()
        .map(|text| text.lines().take_while(|line| *line != "end").map(row).peekable())
        .collect();
    let mut views: HashMap<u32, i64> = HashMap::new();
    let mut zips: HashMap<u32, i64> = HashMap::new();
    let mut report = String::new();
    while let Some(Row { time, kind, key, value }) = next(&mut sources) {
        match kind {
            "view" => *views.entry(key).or_insert(0) += value,
            "update" => match zips.insert(key, value) {
                Some(zip) => writeln!(report, "{time},update[{key}],was {zip}").unwrap(),
                None => writeln!(report, "{time},update[{key}],was none").unwrap(),
            },
            _ => {
                let mut lines: Vec<String> =
                    views.drain().map(|(page, count)| format!("page {page} views {count}")).collect();
                lines.sort();
                for line in lines {
                    writeln!(report, "{time},tick,{line}").unwrap();
                }
            }
        }
    }
    print!("{report}");
}
