//! The pictures of a small store with every kind of thing in it.

mod common;

use common::Folder;

/// Two tables on level 0, one on level 1 with a link to a frozen one, and one key in memory.
fn small(name: &str) -> Folder {
    let folder = Folder::new(name);
    folder.done(&["--store", "s", "--places", "16", "--threshold", "1", "new"]);
    let lines = "put 10 a\nput 40 b\nflush\nput 20 c\nput 30 d\nflush\nput 12 1.000 e\nflush\ntidy\nput 12 2.000 f\n\
                 flush\ntidy\nput 50 g\n";
    let came = folder.call_with(&["--store", "s", "script"], lines.as_bytes());
    assert_eq!(came.status, 0, "{}", came.err);
    folder
}

#[test]
fn the_picture_in_text() {
    let folder = small("text");
    // Seven keys share the 26 columns; a bar begins and ends with the columns that its keys touch.
    let expected = "\
16 places: 12 free, 3 live, 1 frozen; 1 link
threshold 1, cursor 4
summary bits set: 1 % of 256 on average, at most 1 %

memory            1       ..............#####.......  50 to 50
level 0: 2 tables (capacity 2), oldest first
  place 2         1   1%  ..................#####...  12 1.000 to 1.000
  place 3         1   1%  ......................####  12 2.000 to 2.000
level 1: 1 table (capacity 8); merge due: place 0
  place 0       2/2   1%  ###############...........  10 to 40
  + place 1       2       ==========================  0 to last
level 2: 0 tables (capacity 32)
level 3: 0 tables
frozen, linked from level 1: 1 table
  place 1         2   1%  ...=========..............  20 to 30
entries: # a table's own keys, = the slice of a link, - merged already
n/m: m own entries, n in links; a merge is due at 1 link, or at m/m or more
n%: of the 256 bits of a table's summary, so many are set
places: . free, 0 to 3 live on that level, f frozen
     0  1f00............
";
    assert_eq!(folder.done(&["--store", "s", "show", "--ascii"]), expected);
    let shown = folder.done(&["--store", "s", "show"]);
    assert_eq!(shown.lines().count(), expected.lines().count());
    assert_eq!(shown.matches('█').count(), expected.matches('#').count());
    assert_eq!(shown.matches('▒').count(), expected.matches('=').count());
    assert_eq!(shown.matches('░').count(), expected.matches('-').count());
    assert_eq!(folder.call_with(&["--store", "s", "prompt"], b"show\n").out, shown);
    let whole = folder.done(&["--store", "s", "--whole-keys", "show"]);
    assert!(whole.contains("13194139534312 to 13194139534312"));
}

/// The names of tags, with a stroke before those that close; tags that close themselves are left out.
fn tags(svg: &str) -> Vec<&str> {
    let inside = svg.split('<').skip(1).map(|part| part.split('>').next().expect("a tag"));
    inside.filter(|tag| !tag.ends_with('/')).map(|tag| tag.split(' ').next().unwrap()).collect()
}

#[test]
fn links_stand_newest_first_as_they_are_read() {
    let folder = Folder::new("links");
    // Sixteen keys, so that the links do not weigh as much.
    let first: String = (10..26).map(|key| format!("put {key} v\n")).collect();
    let others: String = (1..=4).map(|key| format!("put {key} v\nflush\n")).collect();
    let lines = format!("{first}flush\n{others}tidy all\nshow\n");
    let came = folder.call_with(&[], lines.as_bytes());
    let links: Vec<&str> = came.out.lines().filter(|line| line.contains("└ place")).collect();
    assert_eq!(links.len(), 2);
    assert!(links[0].contains("place 2 ") && links[1].contains("place 1 "), "{links:?}");
    assert!(came.out.contains("  place 0      2/16  "), "{}", came.out);
    assert!(!came.out.contains("merge due:"), "{}", came.out);
}

/// Fewer links than the threshold, of one and of two entries, on a table of three.
#[test]
fn a_merge_is_due_by_weight() {
    let folder = Folder::new("weight");
    folder.done(&["--store", "s", "--places", "16", "new"]);
    let tables = [vec![10, 20, 30], vec![15], vec![12, 25], vec![40], vec![50]];
    let table = |keys: &Vec<u32>| -> String {
        keys.iter().map(|key| format!("put {key} v\n")).chain(["flush\n".into()]).collect()
    };
    let lines: String = tables.iter().map(table).collect();
    let show = |lines: String| {
        let came = folder.call_with(&["--store", "s", "script"], lines.as_bytes());
        assert_eq!(came.status, 0, "{}", came.err);
        folder.done(&["--store", "s", "show", "--ascii"])
    };
    let light = show(format!("{lines}tidy\ntidy\n"));
    assert!(light.contains("  place 0       1/3  ") && !light.contains("merge due:"), "{light}");
    let heavy = show("tidy\n".into());
    assert!(heavy.contains("level 1: 1 table (capacity 8); merge due: place 0\n"), "{heavy}");
    for row in ["  place 0       3/3   1%  ", "  + place 2       2  ", "  + place 1       1  "] {
        assert!(heavy.contains(row), "{heavy}");
    }
    let svg = folder.done(&["--store", "s", "show", "--svg", "-"]);
    let tip = "merge due: 3 entries, 10 to 30; 3 of 256 bits (1 %); its 2 links weigh 3 against 3<";
    let slices = ["class=\"slice\">1<", "class=\"slice\">2<"];
    for words in [tip, ">0: 3/3<"].iter().chain(&slices) {
        assert!(svg.contains(words), "{words}");
    }
    assert_eq!(folder.done(&["--store", "s", "tidy"]), "merged a table, level 1\n");
    let merged = folder.done(&["--store", "s", "show", "--ascii"]);
    assert!(!merged.contains("merge due:") && merged.contains("; 0 links\n"), "{merged}");
}

/// Forty-five bits in one table of sixteen keys, four in another: 45 of 256 are 18 %, and 49 of 512 are 10 %.
#[test]
fn summaries_are_shown_by_their_share() {
    let folder = Folder::new("share");
    let first: String = (0..16).map(|n| format!("put {} {}.000 v\n", 1 + 7 * n, 3 * n)).collect();
    let lines = format!("{first}flush\nput 1 v\nput 2 v\nput 3 v\nput 4 v\nflush\nshow\n");
    let came = folder.call_with(&[], lines.as_bytes());
    let keys: Vec<u64> = (0..16).map(|n| ((1 + 7 * n) << 40) + 3000 * n).collect();
    let bits = |key: &u64| {
        let bytes = key.to_le_bytes().map(u64::from);
        let weighed: u64 = (1..).zip(bytes).map(|(weight, byte)| weight * byte).sum();
        let xor = bytes.into_iter().fold(0, |xor, byte| xor ^ byte);
        [xor, bytes.iter().sum::<u64>() % 256, weighed % 256]
    };
    let set: std::collections::BTreeSet<u64> = keys.iter().flat_map(bits).collect();
    assert_eq!(set.len(), 45);
    for row in [
        "\nsummary bits set: 10 % of 256 on average, at most 18 %\n\n",
        "\n  place 0        16  18%  ",
        "\n  place 1         4   2%  ",
    ] {
        assert!(came.out.contains(row), "{}", came.out);
    }
    // Without tables there is no share.
    let came = folder.call_with(&[], b"put 1 v\nshow\n");
    assert!(came.out.contains("threshold 4, cursor 0\n\nmemory"), "{}", came.out);
}

/// Marks under 1 and 2 hang on level 1 in a slice, one under 40 stands on level 0, one under 9 in memory.
#[test]
fn delete_marks_are_counted_where_they_wait() {
    let folder = Folder::new("marks");
    let values: String = (1..=5).map(|key| format!("put {key} v\n")).collect();
    let lines = format!("{values}flush\ndel 1\ndel 2\nput 6 v\nflush\nput 30 v\nflush\n");
    let came =
        folder.call_with(&[], format!("{lines}del 40\nflush\ntidy all\ndel 9\nshow\n").as_bytes());
    let third = came.out.lines().skip_while(|line| !line.starts_with("threshold")).nth(1);
    assert_eq!(
        third,
        Some("delete marks: 1 in memory, 1 on level 0, 2 on level 1"),
        "{}",
        came.out
    );
    // Where there is none, no line says so.
    let came = folder.call_with(&[], format!("{values}flush\nshow\n").as_bytes());
    assert!(came.out.contains("threshold 4") && !came.out.contains("delete marks"), "{}", came.out);
}

#[test]
fn the_picture_as_an_svg() {
    let folder = small("svg");
    assert_eq!(folder.done(&["--store", "s", "show", "--svg", "p.svg"]), "");
    let svg = String::from_utf8(folder.read("p.svg")).expect("text");
    let mut open = Vec::new();
    for tag in tags(&svg) {
        match tag.strip_prefix('/') {
            Some(name) => assert_eq!(open.pop(), Some(name)),
            None => open.push(tag),
        }
    }
    assert!(open.is_empty());
    assert!(svg.starts_with("<svg xmlns=\"http://www.w3.org/2000/svg\" "));
    // The part that waits for its merge is filled in the frozen table.
    let waiting = "frozen: 2 entries, 20 to 30; 2 of 256 bits (1 %); 2 entries wait</title>";
    assert_eq!(svg.matches(waiting).count(), 1);
    let title = "; cursor 4; summary bits set: 1 % of 256 on average, at most 1 %</text>";
    assert!(svg.contains(title));
    for tip in [
        "memory: 1 entry, 50 to 50",
        "place 2, level 0: 1 entry, 12 1.000 to 1.000; 3 of 256 bits (1 %)",
        "place 0, level 1, merge due: 2 entries, 10 to 40; 2 of 256 bits (1 %); its link weighs 2 against 2",
        "place 1, frozen: 2 entries, 20 to 30; 2 of 256 bits (1 %)",
        "link of place 0 to place 1: 2 entries, 0 to last",
        "place 1: frozen",
        "place 15: free",
    ] {
        assert!(svg.contains(&format!("<title>{tip}</title>")), "{tip}");
    }
}

#[test]
fn a_new_store_and_a_full_one_can_be_drawn() {
    let folder = Folder::new("ends");
    for places in ["16", "4096"] {
        let _ = std::fs::remove_file(folder.path("s"));
        folder.done(&["--store", "s", "--places", places, "new"]);
        assert!(folder.done(&["--store", "s", "show"]).starts_with(places));
        folder.done(&["--store", "s", "show", "--svg", "p.svg"]);
    }
    let lines: String = (0..16).map(|key| format!("put {key} v\nflush\n")).collect();
    let came = folder.call_with(&["--places", "16"], format!("{lines}show\n").as_bytes());
    assert!(came.out.contains("16 places: 0 free, 16 live, 0 frozen"));
}

/// The number in an attribute of a tag.
fn number(tag: &str, name: &str) -> f64 {
    let from = tag.split(&format!(" {name}=\"")).nth(1).expect(name);
    from.split('"').next().unwrap().parse().expect(name)
}

/// The horizontal reach of the bar with this text.
fn reach(svg: &str, tip: &str) -> (f64, f64) {
    let bar = svg.lines().find(|line| line.contains(&format!("<title>{tip}</title>"))).expect(tip);
    (number(bar, "x"), number(bar, "x") + number(bar, "width"))
}

/// A line to a slice begins below the part of the frozen table that waits, also where the slice reaches far beyond it.
#[test]
fn lines_begin_at_frozen_tables() {
    let folder = Folder::new("lines");
    folder.done(&["--store", "s", "--places", "16", "new"]);
    let first = vec![10, 11, 12, 13, 14];
    let tables = [first, vec![1, 2], vec![3, 4], vec![5, 6], vec![20, 21, 22, 23, 24]];
    let table = |keys: &Vec<u32>| -> String {
        keys.iter().map(|key| format!("put {key} v\n")).chain(["flush\n".into()]).collect()
    };
    let lines: String = tables.iter().map(table).collect();
    folder.call_with(&["--store", "s", "script"], format!("{lines}tidy all\n").as_bytes());
    let svg = folder.done(&["--store", "s", "show", "--svg", "-"]);
    let lines = svg.lines().filter(|line| line.starts_with("<path") && line.contains('V'));
    let lines: Vec<f64> = lines
        .map(|line| line.split("M").nth(1).unwrap().split(' ').next().unwrap().parse().unwrap())
        .collect();
    assert_eq!(lines.len(), 2);
    for (place, range) in [(1, "1 to 2"), (2, "3 to 4")] {
        let bits = "2 of 256 bits (1 %)";
        let tip = format!("place {place}, frozen: 2 entries, {range}; {bits}; 2 entries wait");
        let (from, to) = reach(&svg, &tip);
        assert!(lines.iter().any(|x| (from..to).contains(x)), "{place}: {from} to {to}, {lines:?}");
    }
}

/// A store of 4,096 places, most of them full, is drawn in a picture of a page's height, with lines of 80 columns in text.
#[test]
fn a_large_store_can_be_looked_at() {
    let folder = Folder::new("large");
    folder.done(&["--store", "s", "--places", "4096", "new"]);
    let mut list: Vec<u8> = Vec::new();
    for round in 0..3_000u64 {
        for at in 0..4 {
            let (line, metres) = ((round * 7919 + at * 104_729) % 400, (round * 65_537 + at) % 90);
            let key = (line << 40) + 1000 * metres + round % 1000;
            list.extend([12, 0, 1, 0]);
            list.extend(key.to_le_bytes());
        }
        list.extend([4, 0, 5, 0]);
        // So few steps that tables and links stay.
        list.extend([4, 0, 6, 0].repeat(if round % 2 == 0 { 1 } else { 2 }));
    }
    folder.write("list", list);
    folder.done(&["--store", "s", "replay", "list"]);
    let svg = folder.done(&["--store", "s", "show", "--svg", "-"]);
    let head = svg.lines().next().unwrap();
    assert!(number(head, "height") < 3_000.0, "{head}");
    let shown = folder.done(&["--store", "s", "show"]);
    assert!(shown.lines().count() > 3_000);
    assert!(shown.lines().all(|line| line.chars().count() <= 80));
}
