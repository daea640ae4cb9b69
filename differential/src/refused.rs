//! Runs that should be refused, beside a history: wrong sizes, a short answer buffer, broken lists, damaged stores, and
//! several of these at once, since the order of the numbers and of the letters counts too.

use crate::damage::{named_damage, strike};
use crate::Proved;
use reference::generate::broken::BREAKAGES;
use reference::generate::plan::Plan;
use reference::generate::random::Random;
use reference::implementation::{Implementation, Ran, Reference};
use reference::lent::{Lent, ROW_FREE};
use reference::limits::ANSWER_ROOM;
use reference::rules::{self, Broken, Rule};
use reference::trial::{compare, UNTOUCHED};

/// A way to give lent memory sizes that are refused with number 1, with its name.
pub type Misshape = (&'static str, fn(&mut Lent, &mut Random));

pub const MISSHAPES: [Misshape; 9] = [
    ("an area cut inside a place", |lent, random| {
        lent.area.truncate(lent.area.len() - 1 - random.below(1023));
    }),
    ("a byte too many", |lent, _| lent.area.push(0)),
    ("a place too many", |lent, _| lent.area.extend([0; 1024])),
    ("a card too few", |lent, _| lent.cards.truncate(lent.cards.len() - 1)),
    ("a card too many", |lent, _| lent.cards.push(ROW_FREE)),
    ("a list item too few", |lent, _| lent.lists.truncate(lent.lists.len() - 1)),
    ("a list item too many", |lent, _| lent.lists.push(0)),
    ("15 places", |lent, _| resize(lent, 15)),
    ("4,097 places", |lent, _| resize(lent, 4097)),
];

/// All pieces as for so many places, one as good as the other.
fn resize(lent: &mut Lent, places: usize) {
    lent.area.resize(1024 * places, 0);
    lent.cards.resize(places, ROW_FREE);
    lent.lists.resize(4 * places, 0);
}

/// Checks lent memory of any content and compares number and letter with the second implementation.
pub fn compared_check(lent: &Lent) -> Result<(u16, u8), String> {
    let (checked, expected) = (Proved.check(lent), Reference::default().check(lent));
    if checked != expected {
        return Err(format!("check gives {checked:?}, expected {expected:?}"));
    }
    Ok(checked)
}

/// Checks lent memory of any content, runs a list on it and compares everything with the second implementation. That a refused
/// run changes and writes nothing, and that check and run give one letter, is also seen without it.
pub fn compared_run(lent: &mut Lent, list: &[u8], room: usize) -> Result<Ran, String> {
    let checked = compared_check(lent)?;
    let before = lent.clone();
    let mut answers = vec![UNTOUCHED; room];
    let ran = Proved.run(lent, list, &mut answers);
    let nothing = (ran.served, ran.written) == (0, 0)
        && answers.iter().all(|byte| *byte == UNTOUCHED)
        && *lent == before;
    if ran.number != 0 && !nothing {
        return Err(format!("a refused run changed or wrote something: {ran:?}"));
    }
    if ran.number == 5 && (ran.number, ran.letter) != checked {
        return Err(format!("check gives {checked:?}, run {ran:?}"));
    }
    compare(before, list, &ran, &answers, lent)?;
    Ok(ran)
}

/// A name for the broken rules of a store that goes by the first: whether it is broken alone or before others.
pub fn broken_name(broken: &Broken) -> String {
    match broken.iter().collect::<Vec<_>>()[..] {
        [] => "no rule".into(),
        [rule] => format!("rule {rule:?} alone"),
        [first, ..] => format!("rule {first:?} before others"),
    }
}

/// The names of all ways in which rules are broken; no rule comes after G.
pub fn all_broken_names() -> impl Iterator<Item = String> {
    let alone = Rule::ALL.map(|rule| format!("rule {rule:?} alone"));
    let before = Rule::ALL.into_iter().filter(|rule| *rule != Rule::G);
    alone.into_iter().chain(before.map(|rule| format!("rule {rule:?} before others")))
}

/// A run with up to four reasons to refuse it.
struct Spoiled {
    lent: Lent,
    list: Vec<u8>,
    room: usize,
    /// The planned damage, if there is any.
    plan: Plan,
    /// The numbers whose conditions are met, lowest first.
    reasons: Vec<u16>,
    /// What was done, by name.
    names: Vec<String>,
}

impl Spoiled {
    fn add(&mut self, number: u16, name: &str) {
        self.reasons.push(number);
        self.names.push(format!("{number}: {name}"));
    }

    /// Spoils the sizes, the room and the list, each once in three times, and the store every other time.
    fn spoil(&mut self, random: &mut Random) {
        match random.below(6) {
            0 => strike(&mut self.lent, random),
            1 => named_damage(&mut self.lent, random),
            2 => self.plan = Plan::plant(&mut self.lent, random),
            _ => {}
        }
        if random.once_in(3) {
            let (name, misshape) = *random.pick(&MISSHAPES);
            misshape(&mut self.lent, random);
            self.add(1, name);
        }
        if random.once_in(3) {
            let any = random.below(ANSWER_ROOM);
            self.room = *random.pick(&[0, 1, 6, any, ANSWER_ROOM - 1]);
            self.add(3, "short answer buffer");
        }
        if random.once_in(3) {
            let (name, breakage) = *random.pick(&BREAKAGES);
            self.list = breakage(random);
            self.add(4, name);
        }
        // Some damage is harmless, and where sizes are wrong no rule is looked at.
        let broken = rules::check(&self.lent).broken;
        if !broken.is_empty() {
            self.add(5, &broken_name(&broken));
        }
    }
}

/// Spoils a run on a copy of a sound store, runs it, and gives the names of what was reached.
pub fn spoiled_run(sound: &Lent, list: &[u8], random: &mut Random) -> Result<Vec<String>, String> {
    let room = ANSWER_ROOM + random.below(4 * ANSWER_ROOM);
    let (lent, list) = (sound.clone(), list.to_vec());
    let plan = Plan::default();
    let mut spoiled = Spoiled { lent, list, room, plan, reasons: Vec::new(), names: Vec::new() };
    spoiled.spoil(random);
    let Spoiled { mut lent, list, room, plan, reasons, mut names } = spoiled;
    let ran = compared_run(&mut lent, &list, room)?;
    // The lowest number must come, whatever the second implementation says.
    if ran.number != reasons.first().copied().unwrap_or(0) {
        return Err(format!("reasons {reasons:?}, but the number is {}", ran.number));
    }
    // So must the planned letter, where no lower number does.
    if plan.says().0 == 5 && !matches!(ran.number, 1 | 3 | 4) {
        if (ran.number, ran.letter) != plan.says() {
            return Err(format!("gives {ran:?}, planned {:?}", plan.names()));
        }
        names.push("5: by a plan".into());
    }
    let words: Vec<String> = reasons.iter().map(u16::to_string).collect();
    names.push(format!("reasons {}", words.join(" ")));
    Ok(names)
}

/// What enough spoiled runs must have reached: every way, every set of reasons, every rule as the first that is broken, alone
/// and before others.
pub fn required_of_spoiled() -> Vec<String> {
    let sets = ["1", "3", "4", "5", "1 3", "1 4", "1 3 4", "3 4", "3 5", "4 5", "3 4 5"];
    let mut names: Vec<String> = sets.iter().map(|set| format!("reasons {set}")).collect();
    names.extend(MISSHAPES.iter().map(|(name, _)| format!("1: {name}")));
    names.extend(BREAKAGES.iter().map(|(name, _)| format!("4: {name}")));
    names.extend(all_broken_names().map(|name| format!("5: {name}")));
    names.push("5: by a plan".into());
    names
}
