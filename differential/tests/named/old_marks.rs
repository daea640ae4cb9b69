//! Old delete marks (note 5): which a merge drops on each level, and what that comes to. The stores
//! before and after are told to the byte in `marked`, which the second implementation is held to as
//! well; here the judge and the comparison look on, and every buffer stands between guards.

use differential::Proved;
use reference::generate::descent::{self, descent};
use reference::generate::marked;
use reference::lent::Lent;
use reference::trial::{Eyes, Trial};

/// Makes a test of each case of `marked`.
macro_rules! tests {
    ($($name:ident)*) => {
        $(
            #[test]
            fn $name() {
                for (number, case) in marked::$name().iter().enumerate() {
                    assert_eq!(case.hold(&Proved, Eyes::Both), Ok(()), "case {number}");
                }
            }
        )*
    };
}

reference::every_marked_case!(tests);

/// From a new store: fifteen marks stay on level 1 and go on level 2.
#[test]
fn marks_come_down_to_level_2_and_go_there() {
    let trial = Trial::of_new_store(&Proved, Eyes::Both, Lent::zeroed(16), descent::THRESHOLD);
    let mut trial = trial.expect("made");
    let ran = trial.run(&descent(), 1 << 14).expect("no difference");
    assert!(ran.served > 200 && trial.reached.times("kind 6 with nothing to do") == 0);
    let names = ["dropped on 1", "kept on 1", "dropped on 2"];
    let counts = names.map(|name| trial.reached.times(&format!("delete marks {name}")));
    assert_eq!(counts, [1, 15, 15]);
}
