//! Times of the proved functions and calls against those of an ordinary table, of libbloom and of
//! one read of memory: one table, and a picture of the queries in the file that is named.

mod bloom;
mod changes;
mod clock;
mod filled;
mod ordinary;
mod ordinary_call;
mod plot;
mod queries;
mod session;
mod timing;

use timing::Row;

const POWERS: [u32; 5] = [12, 14, 16, 18, 20];

/// The rows of one size at both loads.
fn rows(k: u32) -> Vec<Row> {
    let limit = (1 << k) - (1 << (k - 3));
    let mut rows = Vec::new();
    for (load, used) in [("half", 1 << (k - 1)), ("limit", limit)] {
        let table = filled::filled(k, used);
        eprintln!("2^{k}, {load}: {:.5} of other hashes match", table.rate);
        rows.extend(queries::rows(&table, load));
        rows.extend(changes::rows(&table, load));
    }
    rows
}

fn main() -> std::io::Result<()> {
    let rows: Vec<Row> = POWERS.into_iter().flat_map(rows).collect();
    println!("{}", timing::head());
    for row in &rows {
        println!("{}", row.line());
    }
    match std::env::args().nth(1) {
        Some(file) => std::fs::write(file, plot::picture(&rows, &POWERS)),
        None => Ok(()),
    }
}
