//! The same work as the program beside it, over the standard library's `HashMap`.
use std::collections::HashMap;
use std::time::Instant;

const ROWS: u32 = 200_000;

#[derive(Clone, PartialEq)]
enum PartValue {}

#[derive(Clone, PartialEq)]
struct FileRow {
    path: String,
    values: Vec<PartValue>,
    count: u64,
    size: u64,
}

type Rows = HashMap<String, FileRow>;

struct Change {
    removed: Vec<String>,
    added: Vec<FileRow>,
}

fn path_of(turn: u32) -> String {
    let place = turn.wrapping_mul(7_919) % ROWS;
    format!("d={place:090}.parquet")
}

fn row_of(turn: u32, size: u32) -> FileRow {
    FileRow {
        path: path_of(turn),
        values: Vec::new(),
        count: 7,
        size: size as u64,
    }
}

fn change_of(first: u32, turns: u32, size: u32) -> Change {
    let turns = first..first + turns;
    Change {
        removed: turns.clone().map(path_of).collect(),
        added: turns.map(|turn| row_of(turn, size)).collect(),
    }
}

fn update(rows: &mut Rows, change: &Change) {
    for path in &change.removed {
        rows.remove(path);
    }
    for row in &change.added {
        rows.insert(row.path.clone(), row.clone());
    }
}

fn make_commits(rows: &mut Rows, commits: u32, turns: u32, size: u32) {
    for commit in 0..commits {
        update(rows, &change_of(commit * turns, turns, size));
    }
}

fn missing_from<'a>(rows: &'a Rows, others: &Rows) -> Vec<&'a FileRow> {
    let mut missing: Vec<_> = rows
        .values()
        .filter(|row| others.get(&row.path) != Some(row))
        .collect();
    missing.sort_by(|a, b| a.path.cmp(&b.path));
    missing
}

fn change_to(before: &Rows, after: &Rows) -> Change {
    Change {
        removed: missing_from(before, after).iter().map(|row| row.path.clone()).collect(),
        added: missing_from(after, before).into_iter().cloned().collect(),
    }
}

fn main() {
    let mut rows = Rows::new();
    let start = Instant::now();
    make_commits(&mut rows, 1_334, 150, 1);
    println!("{} rows put in: {} ms", rows.len(), start.elapsed().as_millis());
    let start = Instant::now();
    make_commits(&mut rows, 3_334, 150, 2);
    println!("1,000,200 actions in commits of 300: {} ms", start.elapsed().as_millis());
    let start = Instant::now();
    let mut after = rows.clone();
    println!("a copy of {} rows: {} ms", after.len(), start.elapsed().as_millis());
    make_commits(&mut after, 667, 150, 3);
    let start = Instant::now();
    let change = change_to(&rows, &after);
    println!("the change of {} rows among them: {} ms", change.added.len(), start.elapsed().as_millis());
}
