//! What a check costs at several sizes, on stores that are full of tables and links: the fixed cost of every run.

use crate::clock::timed;
use crate::engines::{Opened, Versions};
use crate::rounds::median;
use differential::check_in_place;
use reference::generate::full::full;
use reference::generate::random::Random;
use reference::lent::{Lent, HEAD_LENGTHS, ROW_COUNT};
use reference::rules;

pub const SIZES: [usize; 5] = [32, 64, 256, 1024, 4096];

/// Checks of small stores are so short that as many are timed together as have so many places.
const TOGETHER: usize = 256;

/// Medians in microseconds.
pub struct CheckTimes {
    pub places: usize,
    pub tables: u64,
    pub links: u64,
    pub proved: f64,
    /// None where there is no earlier store.
    pub before: Option<f64>,
    /// None where it is not wanted.
    pub second: Option<f64>,
}

/// A check on a store of its own; whether that is sound.
struct Check {
    lent: Lent,
    check: Box<dyn Fn(&mut Lent) -> bool>,
}

/// Those of the two opened stores where there are some, else that of the linked one; then the second implementation's if it is wanted.
/// All are of the same store, with the cards as each has them.
fn checks(lent: &Lent, versions: Option<Versions>, with_second: bool) -> Vec<Check> {
    let opened = |store: Opened| Check {
        lent: store.laid_out(lent),
        check: Box::new(move |lent| store.check(lent) == (0, 0)),
    };
    let alike = |check: fn(&mut Lent) -> bool| Check { lent: lent.clone(), check: Box::new(check) };
    let mut checks = match versions {
        Some(Versions { now, before }) => vec![opened(now), opened(before)],
        None => vec![alike(|lent| check_in_place(lent) == (0, 0))],
    };
    if with_second {
        checks.push(alike(|lent| rules::check(lent).number == 0));
    }
    checks
}

/// What one check takes. It is done once before the clock runs, so that each finds the store in the caches as it leaves it itself.
fn time_of(Check { lent, check }: &mut Check) -> f64 {
    let together = (TOGETHER / lent.cards.len()).max(1);
    assert!(check(lent), "a sound store");
    timed(|| (0..together).for_each(|_| assert!(check(lent), "a sound store"))) / together as f64
}

/// All checks in turn on one store, so many times. Two proved stores change places, so that each is behind the second implementation
/// as often as the other.
pub fn check_times(
    seed: u64,
    places: usize,
    rounds: usize,
    versions: Option<Versions>,
    with_second: bool,
) -> CheckTimes {
    let lent: Lent = full(&mut Random::new(seed), places).encode();
    let mut checks = checks(&lent, versions, with_second);
    let mut times = vec![Vec::new(); checks.len()];
    let mut order: Vec<usize> = (0..checks.len()).collect();
    for _ in 0..rounds {
        for which in &order {
            times[*which].push(time_of(&mut checks[*which]));
        }
        if versions.is_some() {
            order.swap(0, 1);
        }
    }
    let middle = |which: usize| median(&times[which]).expect("at least one round");
    CheckTimes {
        places,
        tables: lent.head[HEAD_LENGTHS..].iter().sum(),
        links: lent.cards.iter().map(|row| row[ROW_COUNT]).sum(),
        proved: middle(0),
        before: versions.map(|_| middle(1)),
        second: with_second.then(|| middle(checks.len() - 1)),
    }
}
