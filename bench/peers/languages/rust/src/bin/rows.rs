//! Puts rows with keys of 16 bytes and values of 100 into a `DashMap`, and prints the bytes that one takes.
//!
//!     rows ROWS
use dashmap::DashMap;
use std::error::Error;

/// Pages of Linux on x86-64.
const PAGE: usize = 4_096;

/// The bytes of memory that this process has.
fn resident() -> Result<usize, Box<dyn Error>> {
    let told = std::fs::read_to_string("/proc/self/statm")?;
    let pages: usize = told.split(' ').nth(1).ok_or("no second number")?.parse()?;
    Ok(pages * PAGE)
}

fn main() -> Result<(), Box<dyn Error>> {
    let rows: usize = std::env::args().nth(1).ok_or("how many rows is named")?.parse()?;
    let before = resident()?;
    let map = DashMap::new();
    for number in 0..rows {
        map.insert(format!("user:{number:011}"), vec![0u8; 100]);
    }
    println!("{}", (resident()? - before) / rows);
    Ok(())
}
