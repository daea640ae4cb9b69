//! Files of a sound store with one thing wrong in them, in whatever form they are.

use super::{Came, Folder};
use zilgwern::Rule;

/// The rule that is broken, what is wrong, and how the file comes to it.
pub type Damage = (Rule, &'static str, fn(&mut Vec<u8>));

/// Every call on a file so damaged is refused by the letter of its rule, with that rule's text, and leaves the file; every rule is among them.
pub fn each_is_told(folder: &Folder, sound: &[u8], damages: &[Damage]) {
    for (rule, name, damage) in damages {
        let mut bytes = sound.to_vec();
        damage(&mut bytes);
        folder.write("s", &bytes);
        for words in
            [&["get", "5"][..], &["check"], &["put", "9", "v"], &["show"], &["tidy", "all"]]
        {
            let Came { status, out, err } = folder.call(&[&["--store", "s"], words].concat());
            let letter = rule.letter();
            let answer = match words {
                ["check"] => format!("first broken rule {letter}\n"),
                _ => "".into(),
            };
            assert_eq!((status, out), (3, answer), "{name}");
            let told = format!("s: refused, 5: store not sound, first broken rule {letter}: ");
            assert!(err.starts_with(&format!("surveyctl: {told}")), "{name}: {err}");
            assert!(err.lines().skip(1).all(|line| line.len() <= 80), "{err}");
            let text = format!("Rule {letter} of a sound store: {}", rule.explanation());
            let words: Vec<&str> = err.split_whitespace().collect();
            assert!(words.join(" ").contains(&text), "{name}: {err}");
            assert!(folder.read("s") == bytes, "{name}: the file was changed");
        }
    }
    let told = |rule: &Rule| damages.iter().any(|(broken, ..)| broken == rule);
    assert!(Rule::ALL.iter().all(told));
}
