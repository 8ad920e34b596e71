//! One row of the printed table for each operation.

use crate::{ceilings, early};
use std::collections::BTreeMap;

/// How often each reply came (number 0 to 12), and what differed.
pub struct Row {
    pub name: &'static str,
    pub requests: u64,
    pub replies: [u64; 13],
    /// How often it was done at each point of `early`.
    pub early: [u64; 5],
    /// What test 2 went by, as `ceilings` names it.
    pub over: [u64; 5],
    /// How often ours was asked again under another ceiling.
    pub again: u64,
    pub differences: u64,
    /// Families of the mesh requests that differ.
    pub families: BTreeMap<&'static str, u64>,
    /// The smallest request that differed, in full.
    pub smallest: Option<(usize, String)>,
}

impl Row {
    pub fn new(name: &'static str) -> Self {
        Row {
            name,
            requests: 0,
            replies: [0; 13],
            early: [0; 5],
            over: [0; 5],
            again: 0,
            differences: 0,
            families: BTreeMap::new(),
            smallest: None,
        }
    }

    pub fn differs(&mut self, size: usize, describe: impl FnOnce() -> String) {
        self.differences += 1;
        if self
            .smallest
            .as_ref()
            .map_or(true, |(smallest, _)| size < *smallest)
        {
            self.smallest = Some((size, describe()));
        }
    }
}

/// Prints counts with a name each, a line for each row; nothing if there are no rows.
fn table(title: &str, names: &[&str], rows: &[&Row], counts: fn(&Row) -> Vec<u64>) {
    if rows.is_empty() {
        return;
    }
    print!("\n{title:<20}");
    names.iter().for_each(|name| print!("{name:>15}"));
    println!();
    for row in rows {
        print!("{:<20}", row.name);
        counts(row).iter().for_each(|count| print!("{count:>15}"));
        println!();
    }
}

/// Prints the tables; answers whether nothing differed.
pub fn print(rows: &[Row]) -> bool {
    print!("{:<20}{:>10}{:>10}", "operation", "requests", "done");
    (1..13).for_each(|number| print!("{number:>8}"));
    println!("{:>13}", "differences");
    for row in rows {
        print!("{:<20}{:>10}{:>10}", row.name, row.requests, row.replies[0]);
        row.replies[1..]
            .iter()
            .for_each(|count| print!("{count:>8}"));
        println!("{:>13}", row.differences);
    }
    let meshes: Vec<&Row> = rows.iter().filter(|row| row.again != 0).collect();
    table("done early", &early::NAMES, &meshes, |row| {
        row.early.to_vec()
    });
    let names = [&ceilings::NAMES[..], &["asked again"]].concat();
    table("2 by", &names, &meshes, |row| {
        [&row.over[..], &[row.again]].concat()
    });
    for (row, text) in rows
        .iter()
        .filter_map(|row| Some((row, &row.smallest.as_ref()?.1)))
    {
        println!("\n{}: families that differ {:?}", row.name, row.families);
        println!("the smallest request that differs\n{text}");
    }
    rows.iter().all(|row| row.differences == 0)
}
