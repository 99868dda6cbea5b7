//! Reads the Delta commit in a file so many times with serde_json, and says how long it took:
//! `lines` reads each line as a value and drops it, `files` reads the statistics too, and keeps the
//! path, the values and the numbers of each file, no two of one path.
use serde_json::Value;
use std::collections::BTreeSet;
use std::hint::black_box;
use std::time::Instant;

// What is kept, as this repository's reader keeps it.
#[allow(dead_code)]
struct File {
    path: String,
    values: Vec<(String, Option<String>)>,
    size: u64,
    count: u64,
}

fn lines(bytes: &[u8]) -> impl Iterator<Item = Value> {
    bytes
        .split(|b| *b == b'\n')
        .filter(|line| !line.is_empty())
        .map(|line| serde_json::from_slice(line).unwrap())
}

fn file_of(add: &Value) -> Option<File> {
    let stats: Value = serde_json::from_str(add.get("stats")?.as_str()?).ok()?;
    let values = add.get("partitionValues")?.as_object()?;
    Some(File {
        path: add.get("path")?.as_str()?.to_owned(),
        values: values
            .iter()
            .map(|(name, value)| (name.clone(), value.as_str().map(str::to_owned)))
            .collect(),
        size: add.get("size")?.as_u64()?,
        count: stats.get("numRecords")?.as_u64()?,
    })
}

fn files_of(bytes: &[u8]) -> Vec<File> {
    let mut paths = BTreeSet::new();
    let mut files = Vec::new();
    for line in lines(bytes) {
        if let Some(file) = line.get("add").and_then(file_of) {
            assert!(paths.insert(file.path.clone()));
            files.push(file);
        }
    }
    files
}

fn main() {
    let words: Vec<String> = std::env::args().collect();
    let [_, mode, path, rounds] = words.as_slice() else {
        panic!("give lines or files, a file and a number");
    };
    let bytes = std::fs::read(path).unwrap();
    let rounds: u32 = rounds.parse().unwrap();
    let mut found = 0;
    let start = Instant::now();
    for _ in 0..rounds {
        found = match mode.as_str() {
            "lines" => lines(&bytes).count() as u64,
            _ => black_box(files_of(&bytes)).len() as u64,
        };
    }
    let took = start.elapsed().as_millis();
    println!("serde_json, {mode}: {found}, {rounds} rounds, {took} ms");
}
