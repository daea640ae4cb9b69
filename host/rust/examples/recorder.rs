//! A recorder's day: memory that the host lends, requests in batches, room made when the memory table is full, and a line of
//! the survey read back. Run it with `cargo run --release --offline --example recorder`.

use zilgwern::{Error, Key, List, Memory, Refusal, Reply, Store};

/// Places of the store; a van's would have more.
const PLACES: usize = 64;

/// Puts a finding; where the memory table is full, flushes it and tidies first.
fn record(store: &mut Store, key: Key, code: &str) -> Result<(), Error> {
    match store.put(key, code.as_bytes()) {
        Err(Error::Request(Refusal::MemoryFull)) => {
            store.flush()?;
            while store.tidy()?.is_some() {}
            store.put(key, code.as_bytes())
        }
        other => other,
    }
}

pub fn main() -> Result<(), Error> {
    // The host owns the memory; the store borrows it.
    let mut memory = Memory::zeroed(PLACES);
    let mut store = Store::make(memory.lend(), 4)?;
    for joint in 0..100 {
        let key = Key::of(12, joint * 2_500).expect("a line and a distance in range");
        record(&mut store, key, if joint % 9 == 0 { "BAF" } else { "joint" })?;
    }

    // Requests that come together belong into one list: the store is checked once for all of them.
    let mut list = List::new();
    list.put(Key::of(12, 1_234).expect("in range"), b"crack")?.report()?;
    if let [Reply::Done, Reply::Report(report)] = store.run(&list)?[..] {
        println!("{} places are free, {} entries in memory", report.free, report.memory);
    }

    // Any number of values, sixteen at a time asked of the store.
    let mut count = 0;
    for found in store.range(Key::LEAST, Key::GREATEST) {
        let (key, value) = found?;
        if value != b"joint" {
            let (line, metres) = (key.line(), key.distance() as f64 / 1000.0);
            println!("line {line} at {metres:.3} m: {}", String::from_utf8_lossy(&value));
        }
        count += 1;
    }
    println!("{count} findings");

    // Switched off between jobs: the area and the saved book are kept, and opened again over an area with more places.
    let book = store.save()?;
    drop(store);
    let mut larger = Memory::zeroed(2 * PLACES);
    larger.area[..memory.area.len()].copy_from_slice(&memory.area);
    let mut working = larger.cards.clone();
    let mut again = Store::open_saved(larger.lend(), &book, &mut working)?;
    assert_eq!(again.range(Key::LEAST, Key::GREATEST).count(), count);
    println!("opened again with {} places free", again.report()?.free);
    Ok(())
}
