//! The fuzz target over inputs of its own making: no difference, and each mode reaches what it is for.

use differential::fuzz::{input_lending, input_of, sound_store, try_input};
use differential::refused::all_broken_names;
use reference::reached::Reached;
use reference::rules;

/// What each mode must have reached.
fn required() -> Vec<String> {
    let mut names = Vec::new();
    for (mode, numbers) in [(0, &[1, 3, 4][..]), (1, &[3]), (2, &[3, 4]), (3, &[3])] {
        names.extend(numbers.iter().map(|number| format!("mode {mode}: number {number}")));
        names.push(format!("mode {mode}: number 0, some served"));
    }
    let accepted = ["over as many places", "over more"].map(|over| format!("opened {over}"));
    let refused = ["saving gives 3", "opening gives 1", "opening gives 21", "opening gives 22"];
    names.extend(
        accepted.iter().map(String::as_str).chain(refused).map(|it| format!("mode 4: {it}")),
    );
    names.extend(('A'..='G').map(|letter| format!("mode 4: opening gives 5, letter {letter}")));
    names.extend(all_broken_names().map(|name| format!("mode 1: number 5, {name}")));
    names
}

#[test]
fn inputs_of_all_modes_show_no_difference() {
    let mut reached = Reached::requiring(required());
    for seed in 0..10_000 {
        let name =
            try_input(&input_of(seed)).unwrap_or_else(|words| panic!("seed {seed}: {words}"));
        reached.count(name);
    }
    println!("{reached}");
    assert!(reached.missing().is_empty(), "never reached: {:?}", reached.missing());
}

#[test]
fn short_and_empty_inputs_are_worked_through() {
    for length in 0..40 {
        for mode in 0..5 {
            let mut input = vec![mode; length];
            assert!(try_input(&input).is_ok());
            input.fill(255);
            assert!(try_input(&input).is_ok());
        }
    }
}

/// A store goes into an input and comes out of it as it was: else mode 0 would never meet a sound one.
#[test]
fn an_input_can_lend_any_small_store() {
    for number in 0..200 {
        let lent = sound_store(number);
        assert_eq!(rules::check(&lent).number, 0);
        let flush = [4, 0, 5, 0];
        let reached = try_input(&input_lending(&lent, &flush, 1024));
        assert_eq!(reached.as_deref(), Ok("mode 0: number 0, some served"));
    }
}
