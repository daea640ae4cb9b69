//! Capacities without a list (note 7): which level a tidy relieves. The stores before and after are told to the byte in `relieved`,
//! which the second implementation is held to as well; here the judge and the comparison look on, and every buffer stands between
//! guards.

use differential::Proved;
use reference::generate::relieved;
use reference::trial::Eyes;

/// Makes a test of each case of `relieved`.
macro_rules! tests {
    ($($name:ident)*) => {
        $(
            #[test]
            fn $name() {
                for (number, case) in relieved::$name().iter().enumerate() {
                    assert_eq!(case.hold(&Proved, Eyes::Both), Ok(()), "case {number}");
                }
            }
        )*
    };
}

reference::every_relieved_case!(tests);
