//! Merge by weight (note 2): when a table is due by the numbers of its links, what the numbers count, and that both triggers
//! share one order. What a wrong number comes to is in `numbers`.

use crate::client::{digits, marks, table, table_of, Ask, Client, Reply, GREATEST};
use crate::examples::p7;
use differential::check;

/// What tidies reply.
const LINKED_FROM_0: Reply = Reply::Step(2, 0);
const NOTHING: Reply = Reply::Not(65);

fn merged_on(level: usize) -> Reply {
    Reply::Step(3, level as u16)
}

/// A table of these keys on level 1 in place 0, with level 0 tables in places 1 to 4: slices of one and two entries to link
/// first, and two that stay.
fn with_slices_of_1_and_2(threshold: u64, own: &[u64]) -> Client {
    let slices: [(usize, &[u64]); 4] = [(0, &[105]), (0, &[106, 107]), (0, &[500]), (0, &[501])];
    Client::with_tables(16, threshold, &[&[(1, own)], &slices[..]].concat())
}

#[test]
fn due_at_the_second_link_and_not_at_the_first() {
    let mut store = with_slices_of_1_and_2(8, &[100, 110, 120]);
    assert_eq!(store.ask_one(Ask::Tidy), LINKED_FROM_0);
    assert_eq!(store.links(0), [[1, 0, GREATEST, 1]]);
    // One of three: the next tidy links again.
    assert_eq!(store.ask_one(Ask::Tidy), LINKED_FROM_0);
    assert_eq!(store.links(0), [[1, 0, GREATEST, 1], [2, 0, GREATEST, 2]]);
    // Three of three.
    assert_eq!(store.ask_one(Ask::Tidy), merged_on(1));
    assert_eq!(store.level(1), [5]);
    assert_eq!(store.lent.place(5), table(&[100, 105, 106, 107, 110, 120]));
    assert_eq!(store.links(5), [[0; 4]; 0]);
    assert_eq!(store.ask_in_vain(Ask::Tidy), NOTHING);
}

#[test]
fn not_due_where_the_numbers_add_up_to_one_below() {
    let mut store = with_slices_of_1_and_2(8, &[100, 110, 120, 130]);
    assert_eq!(store.ask(&[Ask::Tidy, Ask::Tidy]), [LINKED_FROM_0, LINKED_FROM_0]);
    // Three of four.
    assert_eq!(store.ask_in_vain(Ask::Tidy), NOTHING);
    store.flush_table([502], "v");
    assert_eq!(store.ask_one(Ask::Tidy), LINKED_FROM_0);
    // Four of four.
    assert_eq!(store.links(0)[2], [3, 0, GREATEST, 1]);
    assert_eq!(store.ask_one(Ask::Tidy), merged_on(1));
    assert_eq!(store.ask_in_vain(Ask::Tidy), NOTHING);
}

#[test]
fn a_table_of_one_entry_is_due_at_its_first_link() {
    for threshold in 1..=8 {
        let tables: [(usize, &[u64]); 4] = [(1, &[100]), (0, &[5]), (0, &[6]), (0, &[7])];
        let mut store = Client::with_tables(16, threshold, &tables);
        assert_eq!(store.ask(&[Ask::Tidy, Ask::Tidy]), [LINKED_FROM_0, merged_on(1)]);
        assert_eq!(store.lent.place(4), table(&[5, 100]));
        // Without links it weighs nothing against two entries, and so it does against one.
        assert_eq!(store.ask_in_vain(Ask::Tidy), NOTHING);
        let mut bare = Client::with_tables(16, threshold, &[(1, &[100]), (2, &[5]), (3, &[6])]);
        assert_eq!(bare.ask_in_vain(Ask::Tidy), NOTHING);
    }
}

/// Sixteen keys from 100 on.
fn sixteen() -> Vec<u64> {
    (100..116).collect()
}

#[test]
fn t_links_are_due_however_light() {
    for threshold in 1..=8 {
        let mut store = Client::with_tables(16, threshold, &[(1, &sixteen())]);
        for link in 1..=threshold as usize {
            assert_eq!(store.ask_in_vain(Ask::Tidy), NOTHING, "{threshold}: before {link}");
            store = store.freeze(link, &digits(&[90 + link as u64]), &[(0, 0, GREATEST)]);
        }
        assert_eq!(store.ask_one(Ask::Tidy), merged_on(1));
    }
}

#[test]
fn sixteen_entries_in_one_slice_are_due_and_fifteen_are_not() {
    for level in 1..=3 {
        let slice: Vec<u64> = (200..216).collect();
        let store = Client::with_tables(16, 8, &[(level, &sixteen())]);
        let mut short = store.clone().freeze(1, &digits(&slice[1..]), &[(0, 0, GREATEST)]);
        assert_eq!(short.ask_in_vain(Ask::Tidy), NOTHING);
        let mut full = store.freeze(1, &digits(&slice), &[(0, 0, GREATEST)]);
        assert_eq!(full.links(0), [[1, 0, GREATEST, 16]]);
        assert_eq!(full.ask_one(Ask::Tidy), merged_on(level));
        assert_eq!(full.level(level), [2, 3]);
    }
}

/// Hangs a link of one entry each from two places on a table of four entries that begins at this key: due by count alone.
fn due_by_count(store: Client, on: usize, first: u64, places: [usize; 2]) -> Client {
    let hang = |store: Client, place| {
        store.freeze(place, &digits(&[first + 1]), &[(on, first, first + 3)])
    };
    places.into_iter().fold(store, hang)
}

/// Hangs a link of one entry on a table of one entry, this key: due by weight alone.
fn due_by_weight(store: Client, on: usize, key: u64, place: usize) -> Client {
    store.freeze(place, &digits(&[key + 1]), &[(on, key, key + 3)])
}

#[test]
fn the_lower_level_number_comes_first_by_either_trigger() {
    let by_count = [10, 11, 12, 13];
    // By count on level 1, by weight on level 2.
    let store = Client::with_tables(16, 2, &[(1, &by_count), (2, &[100])]);
    let mut store = due_by_weight(due_by_count(store, 0, 10, [2, 3]), 1, 100, 4);
    assert_eq!(store.ask(&[Ask::Tidy, Ask::Tidy]), [merged_on(1), merged_on(2)]);
    assert_eq!(store.ask_in_vain(Ask::Tidy), NOTHING);
    // By weight on level 1, by count on level 2; the keys on level 2 are the lower ones.
    let store = Client::with_tables(16, 2, &[(2, &by_count), (1, &[100])]);
    let mut store = due_by_weight(due_by_count(store, 0, 10, [2, 3]), 1, 100, 4);
    assert_eq!(store.ask(&[Ask::Tidy, Ask::Tidy]), [merged_on(1), merged_on(2)]);
    assert_eq!(store.ask_in_vain(Ask::Tidy), NOTHING);
}

#[test]
fn on_one_level_the_lower_keys_come_first_by_either_trigger() {
    let store = Client::with_tables(16, 2, &[(1, &[10, 11, 12, 13]), (1, &[100])]);
    let mut store = due_by_weight(due_by_count(store, 0, 10, [2, 3]), 1, 100, 4);
    assert_eq!((store.ask_one(Ask::Tidy), store.level(1)), (merged_on(1), &[5, 1][..]));
    assert_eq!((store.ask_one(Ask::Tidy), store.level(1)), (merged_on(1), &[5, 6][..]));
    let store = Client::with_tables(16, 2, &[(1, &[5]), (1, &[10, 11, 12, 13])]);
    let mut store = due_by_weight(due_by_count(store, 1, 10, [2, 3]), 0, 5, 4);
    assert_eq!((store.ask_one(Ask::Tidy), store.level(1)), (merged_on(1), &[5, 1][..]));
    assert_eq!((store.ask_one(Ask::Tidy), store.level(1)), (merged_on(1), &[5, 6][..]));
}

#[test]
fn due_by_weight_comes_before_a_merge_in_place_of_a_choice() {
    // Nine tables of two entries on level 1, all with links, and all of these with one entry but the sixth's, with two.
    let keys: Vec<[u64; 2]> = (0..9).map(|table| [100 + 10 * table, 103 + 10 * table]).collect();
    let tables: Vec<(usize, &[u64])> = keys.iter().map(|keys| (1, &keys[..])).collect();
    let mut frozen: Vec<u64> = (0..9).map(|table| 101 + 10 * table).collect();
    frozen.insert(6, 152);
    let links: Vec<(usize, u64, u64)> = (0..9).map(|on| (on, keys[on][0], keys[on][1])).collect();
    let store = Client::with_tables(32, 8, &tables);
    let mut store = store.freeze(9, &digits(&frozen), &links);
    assert_eq!(store.ask_one(Ask::Tidy), merged_on(1));
    assert_eq!(store.level(1), [0, 1, 2, 3, 4, 10, 6, 7, 8]);
    // Now none is due. The merged one has no link and would be chosen, so give it a light one.
    let mut store = store.freeze(11, &digits(&[152]), &[(10, 150, 153)]);
    assert_eq!(store.ask_one(Ask::Tidy), merged_on(1));
    assert_eq!(store.level(1), [12, 1, 2, 3, 4, 10, 6, 7, 8]);
}

#[test]
fn a_merge_due_by_weight_without_a_free_place_is_20() {
    let mut tables: Vec<(usize, &[u64])> = vec![(1, &[10, 20])];
    tables.extend([(0, &[500][..]); 14]);
    let store = Client::with_tables(16, 8, &tables);
    // Due by weight, it is in the way of all that level 0 could do.
    let mut store = store.freeze(15, &digits(&[11, 21]), &[(0, 0, GREATEST)]);
    assert_eq!(store.ask_in_vain(Ask::Tidy), Reply::Not(20));
}

#[test]
fn the_number_counts_delete_marks_and_hidden_entries() {
    let mut store = Client::with_tables(16, 8, &[(1, &[100, 110, 120, 130, 140])]);
    store.ask(&[Ask::Put(105, "first"), Ask::Delete(106), Ask::Delete(107), Ask::Flush]);
    store.flush_table([105], "newer");
    store.flush_table([105], "newest");
    // All three count, though one has a newer value already.
    assert_eq!(store.ask_one(Ask::Tidy), LINKED_FROM_0);
    assert_eq!(store.links(0), [[1, 0, GREATEST, 3]]);
    store.flush_table([600], "v");
    assert_eq!(store.ask(&[Ask::Tidy, Ask::Tidy]), [LINKED_FROM_0, NOTHING]);
    // Now a newer link hides one, and the number stays.
    assert_eq!(store.links(0), [[1, 0, GREATEST, 3], [2, 0, GREATEST, 1]]);
    store.flush_table([601], "v");
    assert_eq!(store.ask_one(Ask::Tidy), LINKED_FROM_0);
    // Five of five by numbers; three keys, and one of them alone has a value.
    assert_eq!(store.ask_one(Ask::Tidy), merged_on(1));
    let newest = vec![(105, Some("newest".to_string()))];
    // Nothing lies below, so the marks of the other two go.
    let own = [digits(&[100]), newest, digits(&[110, 120, 130, 140])];
    assert_eq!(store.lent.place(6), table_of(&own.concat()));
}

#[test]
fn delete_marks_alone_make_a_table_due() {
    for level in 1..=3 {
        let store = Client::with_tables(16, 8, &[(level, &[10, 20])]);
        let mut store = store.freeze(1, &marks([5, 30]), &[(0, 0, GREATEST)]);
        assert_eq!(store.ask_one(Ask::Tidy), merged_on(level));
        // They count, and then go.
        assert_eq!(store.lent.place(2), table(&[10, 20]));
    }
}

#[test]
fn the_number_counts_what_is_in_the_range_and_no_more() {
    // Fourteen of sixteen are outside, two of them by one.
    let around: Vec<u64> =
        [&[1, 2, 3, 4, 5, 6, 19, 20, 30, 31][..], &[40, 41, 42, 43, 44, 45]].concat();
    let store = Client::with_tables(16, 8, &[(1, &[20, 25, 30])]);
    let mut store = store.freeze(1, &digits(&around), &[(0, 20, 30)]);
    assert_eq!(store.links(0), [[1, 20, 30, 2]]);
    assert_eq!(store.ask_in_vain(Ask::Tidy), NOTHING);
}

#[test]
fn p7_is_not_due_with_t_4_and_p8_is() {
    let mut light = p7(4, &[5, 25, 70]);
    assert_eq!(light.ask_one(Ask::Tidy), LINKED_FROM_0);
    assert_eq!(light.ask_in_vain(Ask::Tidy), NOTHING);
    let mut heavy = p7(4, &[5, 6]);
    assert_eq!(heavy.ask(&[Ask::Tidy, Ask::Tidy]), [LINKED_FROM_0, merged_on(1)]);
    assert_eq!(
        (heavy.level(1), heavy.lent.place(6)),
        (&[6, 1, 2][..], &table(&[5, 6, 10, 20])[..])
    );
    assert_eq!(heavy.ask_in_vain(Ask::Tidy), NOTHING);
}

#[test]
fn p9_still_holds_since_t_is_1() {
    let mut store = p7(1, &[5, 25, 70]);
    assert_eq!(store.ask_one(Ask::Tidy), LINKED_FROM_0);
    // None is due by weight: one of two on each.
    let numbers = [0, 1, 2].map(|place| store.links(place)[0][3]);
    assert_eq!(numbers, [1, 1, 1]);
    let merges = [merged_on(1), merged_on(1), merged_on(1), NOTHING];
    assert_eq!(store.ask(&[Ask::Tidy, Ask::Tidy, Ask::Tidy, Ask::Tidy]), merges);
    assert_eq!((store.lent.cards[3][0], store.level(1)), (0, &[6, 7, 8][..]));
}

/// Tidies and checks: the reply, the links of the tables in these places, and that the store is sound.
fn tidies(store: &mut Client, reply: Reply, expected: &[(usize, &[[u64; 4]])]) {
    assert_eq!(store.ask_one(Ask::Tidy), reply);
    for (place, links) in expected {
        assert_eq!(store.links(*place), *links, "place {place}");
    }
    assert_eq!(check(&store.lent), (0, 0));
}

#[test]
fn numbers_stay_right_while_others_that_share_the_place_are_merged() {
    let below: [(usize, &[u64]); 3] = [(1, &[10, 20]), (1, &[30, 35, 40]), (1, &[50, 60])];
    let above: [(usize, &[u64]); 3] = [(0, &[5, 25, 26, 70, 71]), (0, &[1]), (0, &[2])];
    let mut store = Client::with_tables(32, 8, &[below, above].concat());
    let (first, second) = ([3, 0, 20, 1], [3, 21, 40, 2]);
    tidies(
        &mut store,
        LINKED_FROM_0,
        &[(0, &[first]), (1, &[second]), (2, &[[3, 41, GREATEST, 2]])],
    );
    // The third is due, two of two. The frozen place keeps its other links.
    tidies(&mut store, merged_on(1), &[(0, &[first]), (1, &[second]), (6, &[])]);
    // Newer entries of its keys come, in memory and on level 0.
    store.ask(&[Ask::Put(5, "n"), Ask::Put(25, "n"), Ask::Delete(26)]);
    assert_eq!((store.links(0), store.links(1)), (vec![first], vec![second]));
    assert_eq!(store.ask_one(Ask::Flush), Reply::Done);
    tidies(&mut store, LINKED_FROM_0, &[(0, &[first, [4, 0, 20, 1]]), (1, &[second])]);
    // The first is due, two of two. One link is left.
    tidies(&mut store, merged_on(1), &[(8, &[]), (1, &[second])]);
    assert_eq!(store.lent.cards[3][0], 2);
    store.flush_table([600], "v");
    tidies(&mut store, LINKED_FROM_0, &[(8, &[[5, 0, 20, 1]]), (1, &[second])]);
    store.flush_table([601], "v");
    // Both entries of the older link are hidden by the newer one, and count.
    tidies(&mut store, LINKED_FROM_0, &[(1, &[second, [7, 21, 40, 2]])]);
    tidies(&mut store, merged_on(1), &[(8, &[[5, 0, 20, 1], [7, 0, 20, 1]]), (11, &[])]);
    assert_eq!(store.lent.cards[3][0], 0);
    assert_eq!(store.ask_in_vain(Ask::Tidy), NOTHING);
}
