//! What the README and the help texts print is what happens.

mod common;

use common::Folder;
use surveyctl::Command;

/// The sessions of a text: commands of a shell, each with the lines that it prints. A command goes on behind `> `.
fn sessions(text: &str) -> Vec<(String, String)> {
    let mut sessions: Vec<(String, String)> = Vec::new();
    let mut open = false;
    for line in text.lines() {
        match (line.strip_prefix("    $ "), line.strip_prefix("    ")) {
            (Some(command), _) => {
                sessions.push((command.into(), String::new()));
                open = true;
            }
            (None, Some(printed)) if open && printed.starts_with("> ") => {
                sessions.last_mut().expect("open").0 += &format!("\n{}", &printed[2..]);
            }
            (None, Some(printed)) if open => {
                sessions.last_mut().expect("open").1 += &format!("{printed}\n");
            }
            // An empty line may be one of those that are printed.
            (None, None) if open && line.is_empty() => {
                sessions.last_mut().expect("open").1 += "\n";
            }
            _ => open = false,
        }
    }
    sessions
}

/// Whether this was printed; a line of three points stands for any lines.
fn is_printed(came: &str, printed: &str) -> bool {
    let mut parts = printed.split("...\n");
    let first = parts.next().unwrap_or("");
    let Some(mut rest) = came.strip_prefix(first) else { return false };
    let mut last = None;
    for part in parts {
        if let Some(part) = last.replace(part) {
            let Some(at) = rest.find(part) else { return false };
            rest = &rest[at + part.len()..];
        }
    }
    last.map_or(rest.is_empty(), |last| rest.ends_with(last))
}

/// Runs the sessions of a text, one behind the other in one folder.
fn run_sessions(folder: &Folder, text: &str, least: usize) {
    let sessions = sessions(text);
    assert!(sessions.len() >= least, "{}", sessions.len());
    for (command, printed) in sessions {
        let came = folder.shell(&command);
        // The text goes on behind an empty line.
        let (came, printed) = (came.trim_end(), printed.trim_end());
        let (came, printed) = (format!("{came}\n"), format!("{printed}\n"));
        assert!(is_printed(&came, &printed), "$ {command}\n{came}instead of\n{printed}");
    }
}

#[test]
fn lines_that_are_left_out_are_all_that_may_differ() {
    assert!(is_printed("a\nb\n", "a\nb\n") && !is_printed("a\nb\n", "a\n"));
    assert!(is_printed("a\nb\nc\n", "a\n...\nc\n") && !is_printed("a\nb\n", "a\n...\nc\n"));
    assert!(is_printed("a\nb\n", "a\n...\n") && !is_printed("b\na\n", "a\n...\n"));
}

#[test]
fn the_sessions_of_the_readme_run_as_printed() {
    run_sessions(&Folder::new("readme"), include_str!("../README.md"), 16);
}

/// Those that call `survey` want `tools/program` first.
#[test]
fn the_sessions_of_the_page_of_formats_run_as_printed() {
    run_sessions(&Folder::new("formats"), include_str!("../../docs/FORMATS.md"), 9);
}

/// The tour of the main README, and the picture that it shows.
#[test]
fn the_tour_runs_as_printed() {
    let folder = Folder::new("tour");
    run_sessions(&folder, include_str!("../../README.md"), 30);
    let shown = include_str!("../../docs/tour.svg");
    assert!(
        folder.read("van.svg") == shown.as_bytes(),
        "docs/tour.svg is not what the tour writes"
    );
}

/// Where the links of a text lead to: files from its own folder on, without what is behind `#`.
fn links(text: &str) -> Vec<&str> {
    let ends = text.split("](").skip(1).filter_map(|rest| rest.split(')').next());
    ends.filter_map(|link| link.split('#').next()).filter(|file| !file.is_empty()).collect()
}

#[test]
fn the_links_of_the_texts_lead_somewhere() {
    let package = std::env::var("CARGO_MANIFEST_DIR").expect("cargo names the package");
    let top = std::path::Path::new(&package).join("..");
    let texts = ["README.md", "docs/FORMATS.md", "docs/LAYOUT.md", "surveyctl/README.md"];
    let more = ["differential/README.md", "reference/README.md", "docs/STATEMENTS.md"];
    let mut count = 0;
    for text in texts.iter().chain(&more) {
        let path = top.join(text);
        let words = std::fs::read_to_string(&path).expect(text);
        for link in links(&words) {
            assert!(path.parent().unwrap().join(link).exists(), "{text}: {link}");
            count += 1;
        }
    }
    assert!(count > 8);
}

/// Lines of a help text that are indented by two are commands, or calls of the program.
#[test]
fn the_examples_of_the_help_texts_are_understood() {
    let folder = Folder::new("help");
    let names = ["put", "get", "del", "scan", "probe", "show", "new", "grow", "save", "open"];
    for name in names {
        let text = folder.done(&["help", name]);
        assert_eq!(text, folder.done(&[name, "--help"]));
        let examples: Vec<&str> = text.lines().filter_map(|line| line.strip_prefix("  ")).collect();
        assert!(!examples.is_empty(), "{name}");
        for example in examples.iter().filter(|example| !example.starts_with("surveyctl")) {
            assert!(matches!(Command::of(example), Ok(Some(_))), "{example}");
        }
    }
    folder.shell("surveyctl --store van.store --places 64 --threshold 2 new");
    assert_eq!(folder.read("van.store").len(), 16 + 64 * 1024 + 32 + 64 * 4 + 5 * 2);
    assert_eq!(folder.shell("surveyctl --store van.store show --svg van.svg"), "");
    assert!(folder.path("van.svg").exists());
    // Those that keep a store are run as they are printed.
    for name in ["grow", "save", "open"] {
        let text = folder.done(&["help", name]);
        let example = text.lines().find_map(|line| line.strip_prefix("  ")).expect(name);
        folder.shell(&format!("{example} || echo failed >> failed"));
    }
    assert_eq!(folder.names(), ["office.store", "van.area", "van.book", "van.store", "van.svg"]);
    assert!(folder.read("office.store") == folder.read("van.store"));
}

#[test]
fn every_command_has_a_help_text() {
    let folder = Folder::new("topics");
    let all = folder.done(&["--help"]);
    let commands = all.lines().filter_map(|line| line.strip_prefix("  ")).filter_map(|line| {
        line.split(' ').next().filter(|word| word.starts_with(|c: char| c.is_ascii_lowercase()))
    });
    let mut count = 0;
    for command in commands {
        assert!(folder.done(&["help", command]).contains(command));
        count += 1;
    }
    assert!(count > 18);
    let texts = [
        "put", "scan", "probe", "check", "show", "script", "replay", "decode", "new", "grow",
        "save", "open",
    ];
    let texts = texts.map(|it| folder.done(&["help", it]));
    let long = texts.iter().chain([&all]).flat_map(|text| text.lines()).find(|it| it.len() > 80);
    assert_eq!(long, None, "a terminal has 80 columns");
    assert_eq!(folder.call(&["help", "frob"]).status, 2);
    assert_eq!(all, folder.done(&["-h"]));
    assert_eq!(all, folder.done(&["help"]));
}
