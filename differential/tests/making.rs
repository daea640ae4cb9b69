//! Making a store over lent memory of any contents, against the second implementation.

use differential::make;
use reference::generate::random::{any_lent, Random};
use reference::run;

#[test]
fn made_alike_for_every_threshold_and_size() {
    let mut random = Random::new(7);
    for places in [0, 15, 16, 17, 32, 100, 4096, 4097] {
        for threshold in [0, 1, 2, 3, 4, 5, 6, 7, 8, 9, 255, u64::MAX] {
            let found = any_lent(&mut random, places);
            let (mut ours, mut theirs) = (found.clone(), found);
            let number = make(&mut ours, threshold);
            assert_eq!(
                number,
                u64::from(run::make(&mut theirs, threshold)),
                "{places} places, threshold {threshold}"
            );
            assert_eq!(ours.difference(&theirs), None, "{places} places, threshold {threshold}");
        }
    }
}
