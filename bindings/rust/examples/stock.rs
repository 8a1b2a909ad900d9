//! Stock of a shop: a map from names to counts that threads share, and the state of the evening before.

use std::thread;
use tambyulo::{Error, Shared};

fn main() -> Result<(), Error> {
    let stock = Shared::new();
    for (name, count) in [("apple", 5), ("apricot", 2), ("pear", 7)] {
        stock.put(name, count)?;
    }
    let evening = stock.snapshot()?;

    thread::scope(|scope| {
        scope.spawn(|| stock.put("apple", 6));
        scope.spawn(|| stock.remove("pear"));
    });
    println!(
        "apple: {:?} now, {:?} in the evening",
        stock.get("apple"),
        evening.get("apple")
    );
    println!("ap..: {} names", evening.count_prefix("ap"));

    let mut names: Vec<_> = evening.iter().collect();
    names.sort();
    for (name, count) in names {
        println!("  {} {count}", String::from_utf8_lossy(&name));
    }
    Ok(())
}
