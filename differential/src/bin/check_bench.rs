//! check_bench: prints what a check costs at several sizes, the proved one beside the second implementation, on stores
//! that are full of tables and links; and how the cost grows from one size to the next.

use reference::generate::full::full;
use reference::generate::random::Random;
use reference::lent::{HEAD_LENGTHS, ROW_COUNT};
use reference::rules;
use std::time::Instant;

/// The least of some times, in microseconds.
fn least_time(mut call: impl FnMut()) -> f64 {
    let once = |call: &mut dyn FnMut()| {
        let began = Instant::now();
        call();
        began.elapsed().as_secs_f64() * 1e6
    };
    (0..15).map(|_| once(&mut call)).fold(f64::INFINITY, f64::min)
}

fn main() {
    let mut random = Random::new(1);
    let mut before: Option<(usize, f64)> = None;
    println!("places  tables  links  proved (us)  per place (ns)  second (us)  growth");
    for places in [64, 512, 4096] {
        let mut lent = full(&mut random, places).encode();
        let tables: u64 = lent.head[HEAD_LENGTHS..].iter().sum();
        let links: u64 = lent.cards.iter().map(|row| row[ROW_COUNT]).sum();
        assert_eq!(differential::check(&lent), (0, 0));
        let proved = least_time(|| assert_eq!(differential::check_in_place(&mut lent), (0, 0)));
        let second = least_time(|| assert_eq!(rules::check(&lent).number, 0));
        let growth = match before {
            Some((fewer, time)) => format!("x{:.1} for x{} places", proved / time, places / fewer),
            None => "".to_string(),
        };
        let each = proved * 1000.0 / places as f64;
        println!("{places:6}  {tables:6}  {links:5}  {proved:11.1}  {each:14.1}  {second:11.1}  {growth}");
        before = Some((places, proved));
    }
}
