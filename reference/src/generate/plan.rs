//! Plans: one to four named damages in one store, which say by themselves how it is refused. So letters are judged without the
//! rules.
//!
//! Damages are planted from the last rule to the first. One may undo those planted before it: a damaged frozen table leaves
//! nothing to count for a link whose number was made wrong. But each keeps the rules before its own, so nothing undoes the one
//! that was planted last, and its rule is the first that is broken. Two of one rule do not undo each other either (`damage`).

use super::damage::{damages, Damage};
use super::random::Random;
use crate::lent::Lent;
use crate::rules::{Broken, Rule};
use std::cmp::Reverse;

/// The most damages of a plan.
const MOST: usize = 4;

/// The damages that were planted in a store, in this order; none where nothing fitted.
#[derive(Clone, Default)]
pub struct Plan {
    planted: Vec<&'static Damage>,
}

impl Plan {
    /// Plants one to four damages in a sound store; those that it has nothing for are left out.
    pub fn plant(lent: &mut Lent, random: &mut Random) -> Plan {
        let drawn = 1 + random.below(MOST);
        let mut planted: Vec<_> = (0..drawn).map(|_| draw(random)).collect();
        planted.sort_by_key(|damage| Reverse(damage.rule));
        planted.retain(|damage| (damage.plant)(lent, random).is_some());
        Plan { planted }
    }

    /// Number and letter that check and run must give.
    pub fn says(&self) -> (u16, u8) {
        match self.planted.last() {
            Some(damage) => (5, damage.rule.letter()),
            None => (0, 0),
        }
    }

    /// The rules whose damages were planted.
    pub fn rules(&self) -> Broken {
        self.planted.iter().map(|damage| damage.rule).collect()
    }

    /// What was planted, by name and in order, for reports of failed tests.
    pub fn names(&self) -> Vec<&'static str> {
        self.planted.iter().map(|damage| damage.name).collect()
    }
}

/// One of the damages that break one rule alone: each rule as often as another, however many damages it has.
fn draw(random: &mut Random) -> &'static Damage {
    let rule = *random.pick(&Rule::ALL);
    let fits = |damage: &&Damage| damage.alone && damage.rule == rule;
    let fitting: Vec<_> = damages().filter(fits).collect();
    fitting[random.below(fitting.len())]
}
