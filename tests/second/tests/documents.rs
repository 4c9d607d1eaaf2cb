//! What the documents name is there: definitions, theorems, functions, edits, crates and tests.
//! Names stand in backquotes, in the forms that docs/TRACE.md gives; a bare name behind a comma
//! belongs to the crate or file of the name before. Each test prints all stale names at once.

use std::collections::{BTreeMap, BTreeSet};
use std::fs;
use std::path::{Path, PathBuf};

#[derive(PartialEq)]
enum Kind {
    Definition,
    Function,
    Edit,
    Test,
}

fn path(name: &str) -> PathBuf {
    Path::new(concat!(env!("CARGO_MANIFEST_DIR"), "/../..")).join(name)
}

fn read(name: &str) -> String {
    fs::read_to_string(path(name)).unwrap_or_else(|error| panic!("{name}: {error}"))
}

/// What stands in a folder and ends so, without the ending; nothing where there is no folder.
fn listed(folder: &str, ending: &str) -> BTreeSet<String> {
    let mut all = BTreeSet::new();
    for entry in fs::read_dir(path(folder)).into_iter().flatten() {
        let name = entry.unwrap().file_name().into_string().unwrap();
        all.extend(name.strip_suffix(ending).map(str::to_string));
    }
    all
}

/// A line without these words at its start.
fn without<'a>(words: &[&str], line: &'a str) -> &'a str {
    let strip = |rest: &'a str, word: &&str| rest.strip_prefix(*word).unwrap_or(rest);
    words.iter().fold(line, strip)
}

/// The name that a line of a file of specs or proofs declares: its type follows, or parameters of a record.
fn definition(line: &str) -> Option<&str> {
    let line = without(&["abbrev ", "unfoldable ", "pub "], line.trim_start());
    let rest = without(&["record ", "data "], line);
    let (name, behind) = rest.split_once(' ')?;
    (behind.starts_with(':') || rest != line).then_some(name)
}

/// The function, method or type that a line of a program or of a test declares.
fn item(line: &str) -> Option<&str> {
    let line = line.trim_start();
    let (kind, rest) = without(&["pub ", "extern \"C\" "], line).split_once(' ')?;
    let mut words = rest.split(|c: char| !c.is_alphanumeric() && c != '_');
    words
        .next()
        .filter(|_| ["fn", "struct", "enum"].contains(&kind))
}

/// All that documents may name. `crate/*.name` stands for a name in some file of the crate.
fn known() -> BTreeSet<String> {
    let mut all = BTreeSet::new();
    for folder in listed("crates", "") {
        for part in ["specs", "proofs"] {
            for file in listed(&format!("crates/{folder}/{part}"), ".antt") {
                all.insert(format!("{folder}/{file}"));
                all.insert(format!("{folder}/*.{file}"));
                let text = read(&format!("crates/{folder}/{part}/{file}.antt"));
                for name in text.lines().filter_map(definition) {
                    all.insert(format!("{folder}/{file}.{name}"));
                    all.insert(format!("{folder}/*.{name}"));
                }
            }
        }
        for file in listed(&format!("crates/{folder}/src"), ".rt") {
            let text = read(&format!("crates/{folder}/src/{file}.rt"));
            let names = text.lines().filter_map(item);
            all.extend(names.map(|name| format!("{folder}: {name}")));
        }
        for edit in listed(&format!("crates/{folder}/must-fail"), ".edit") {
            all.insert(format!("{folder}: must-fail/{edit}"));
        }
    }
    for (member, prefix) in [("second", ""), ("library", "library/")] {
        for file in listed(&format!("tests/{member}/tests"), ".rs") {
            let text = read(&format!("tests/{member}/tests/{file}.rs"));
            let names = text.lines().filter_map(item);
            all.extend(names.map(|name| format!("{prefix}{file}.rs: {name}")));
        }
    }
    all
}

fn is_word(text: &str) -> bool {
    let small = |c: char| c.is_ascii_lowercase() || c.is_ascii_digit() || c == '_';
    !text.is_empty() && text.chars().all(small)
}

/// Whether a bare name belongs to the one before, by the text between: a comma, also behind a
/// remark in brackets; a bracket, as in `crate/File.Record` (`field`); a colon.
fn joins(between: &str) -> bool {
    let text = between.trim();
    matches!(text, "," | ":" | "(" | "),") || text.starts_with('(') && text.ends_with("),")
}

/// Kind and full form of a name. `head` is the name that says crate or file: the one before the
/// commas, or the name itself.
fn named(head: &str, text: &str) -> Option<(Kind, String)> {
    let own = text.split(": ").last()?;
    let own = own.strip_suffix(" (contract)").unwrap_or(own);
    // The forms themselves, and parts of names.
    let is_form = head.starts_with("crate/") || head.starts_with("crate: ");
    if is_form || own == "name" || own == "field" || own.ends_with('…') {
        return None;
    }
    if let Some((first, _)) = head.split_once(": ") {
        let full = format!("{first}: {own}");
        return match first {
            "Marked" => Some((Kind::Definition, format!("examples/Marked.{own}"))),
            _ if first.ends_with(".rs") => Some((Kind::Test, full)),
            _ if !is_word(first) => None,
            _ if own.starts_with("must-fail/") => Some((Kind::Edit, full)),
            _ => is_word(own).then_some((Kind::Function, full)),
        };
    }
    // Further words are arguments; bare ones with arguments are terms, not names.
    let word = head.split(' ').next()?;
    let (folder, file) = word.split_once('/')?;
    let is_path = [".antt", ".name"].iter().any(|end| file.ends_with(end));
    if is_path || !is_word(folder) || !file.starts_with(|c: char| c.is_ascii_uppercase()) {
        None
    } else if text == head {
        Some((Kind::Definition, word.to_string()))
    } else {
        (!text.contains(' ')).then(|| (Kind::Definition, format!("{folder}/*.{text}")))
    }
}

/// The names of a kind that are not there. Of the changes only the newest landing counts: older
/// notes have the names of their time.
fn stale(kind: Kind) -> Vec<String> {
    let known = known();
    let mut documents = vec!["README.md".to_string(), "tests/README.md".to_string()];
    let docs = listed("docs", ".md").into_iter();
    documents.extend(docs.map(|name| format!("docs/{name}.md")));
    let mut all = Vec::new();
    for document in documents {
        let mut landings = 0;
        for (number, line) in read(&document).lines().enumerate() {
            landings += usize::from(document == "docs/CHANGES.md" && line.starts_with("## "));
            if landings > 1 {
                break;
            }
            let parts: Vec<&str> = line.split('`').collect();
            let mut head = "";
            for pair in parts.chunks_exact(2) {
                let (between, text) = (pair[0], pair[1]);
                let bare = text.starts_with("must-fail/") || !text.contains([':', '/']);
                head = if bare && joins(between) { head } else { text };
                match named(head, text) {
                    Some((of, full)) if of == kind && !known.contains(&full) => {
                        all.push(format!("{document}:{}: {full}", number + 1));
                    }
                    _ => {}
                }
            }
        }
    }
    all
}

fn fail_on(stale: Vec<String>) {
    let count = stale.len();
    assert!(count == 0, "{count} stale:\n{}", stale.join("\n"));
}

#[test]
fn names_of_definitions_and_theorems() {
    fail_on(stale(Kind::Definition));
}

#[test]
fn names_of_functions() {
    fail_on(stale(Kind::Function));
}

#[test]
fn names_of_tests() {
    fail_on(stale(Kind::Test));
}

/// The rows of the tables under a heading, or of all under "": document and line, and the cells.
fn rows(document: &str, heading: &str) -> Vec<(String, Vec<String>)> {
    let text = read(document);
    let mut under = "";
    let mut all = Vec::new();
    for (number, line) in text.lines().enumerate() {
        under = line.strip_prefix("## ").unwrap_or(under);
        if line.starts_with('|') && (heading.is_empty() || under == heading) {
            let cells = line.split('|').skip(1).map(|cell| cell.trim().to_string());
            all.push((format!("{document}:{}", number + 1), cells.collect()));
        }
    }
    all
}

fn quoted(text: &str) -> impl Iterator<Item = &str> {
    text.split('`').skip(1).step_by(2)
}

/// Each edit has one row in each of two tables. The first names the crate first.
#[test]
fn names_of_edits() {
    let mut edits = known();
    edits.retain(|name| name.contains(": must-fail/"));
    let mut wrong = stale(Kind::Edit);
    let tables = [("EDITS", "", 0), ("THEOREMS", "Edits that must fail", 1)];
    for (document, heading, at) in tables {
        let document = format!("docs/{document}.md");
        let mut told = Vec::new();
        for (place, row) in rows(&document, heading) {
            let cells = (quoted(&row[at]).next(), quoted(&row[1 - at]).next());
            if let (Some(folder), Some(edit)) = cells {
                told.push((place, format!("{folder}: must-fail/{edit}")));
            }
        }
        let gone = told.iter().filter(|(_, edit)| !edits.contains(edit));
        wrong.extend(gone.map(|(place, edit)| format!("{place}: {edit}")));
        for edit in &edits {
            let count = told.iter().filter(|(_, other)| other == edit).count();
            if count != 1 {
                wrong.push(format!("{document}: {count} rows for {edit}"));
            }
        }
    }
    fail_on(wrong);
}

/// The row of a crate names its specs files; what else it names is of this crate, or a crate.
#[test]
fn every_crate_is_described() {
    let (known, crates) = (known(), listed("crates", ""));
    let rows = rows("docs/ARCHITECTURE.md", "Crates");
    let mut wrong = Vec::new();
    for line in read("crates.txt")
        .lines()
        .filter(|line| !line.starts_with('#'))
    {
        let folder = line.split([':', ' ']).next().unwrap();
        let own = format!("`{folder}`");
        let Some((place, row)) = rows.iter().find(|(_, row)| row[..2].contains(&own)) else {
            wrong.push(format!("docs/ARCHITECTURE.md: no row for {folder}"));
            continue;
        };
        let row = row.join("|");
        for file in listed(&format!("crates/{folder}/specs"), ".antt") {
            if file != "Lib" && !quoted(&row).any(|name| name == file) {
                wrong.push(format!("{place}: {folder} without {file}"));
            }
        }
        for name in quoted(&row).filter(|name| !crates.contains(*name)) {
            let forms = [format!("{folder}: {name}"), format!("{folder}/*.{name}")];
            if !forms.iter().any(|form| known.contains(form)) {
                wrong.push(format!("{place}: {folder} has no {name}"));
            }
        }
    }
    fail_on(wrong);
}

/// The column "Uses" has the crate's line of crates.txt; a crate stands below those that it uses.
#[test]
fn uses_of_crates() {
    let rows = rows("docs/ARCHITECTURE.md", "Crates");
    let place_of = |folder: &str| {
        let own = format!("`{folder}`");
        rows.iter().position(|(_, row)| row[..2].contains(&own))
    };
    let mut wrong = Vec::new();
    for line in read("crates.txt")
        .lines()
        .filter(|line| !line.starts_with('#'))
    {
        let (folder, uses) = line.split_once(':').unwrap();
        let Some(at) = place_of(folder) else {
            continue; // told by every_crate_is_described
        };
        let (place, row) = &rows[at];
        let column = usize::from(row[0] != format!("`{folder}`")) + 1;
        let uses: Vec<&str> = uses.split_whitespace().collect();
        let listed = if uses.is_empty() {
            "–".to_string()
        } else {
            uses.join(", ")
        };
        if row[column] != listed {
            wrong.push(format!("{place}: {folder} uses {listed}"));
        }
        let below = uses.iter().filter(|name| place_of(name) > Some(at));
        wrong.extend(below.map(|name| format!("{place}: {folder} stands above {name}")));
    }
    fail_on(wrong);
}

/// A text on one line, with single blanks.
fn on_one_line(text: &str) -> String {
    text.split_whitespace().collect::<Vec<&str>>().join(" ")
}

/// README and header tell each refusal in the same words.
#[test]
fn refusals_of_the_header() {
    let header = on_one_line(&read("include/kamfelu.h"));
    let mut numbers = Vec::new();
    let mut wrong = Vec::new();
    for (place, row) in rows("README.md", "Refusals") {
        let Ok(number) = row[0].parse::<u8>() else {
            continue;
        };
        numbers.push(number);
        if !header.contains(&format!(" {number} {} ", row[1])) {
            wrong.push(format!("{place}: not in the header"));
        }
    }
    assert_eq!(numbers, (1..=23).collect::<Vec<u8>>());
    fail_on(wrong);
}

/// The functions behind a word, such as `fn`, and the number of their parameters; a slice counts twice.
fn functions<'a>(text: &'a str, word: &str) -> BTreeMap<&'a str, usize> {
    let mut all = BTreeMap::new();
    for part in text.split(word).skip(1) {
        let (name, rest) = part.split_once('(').expect("parameters");
        let list = rest.split(')').next().expect("an end");
        let parameters = list
            .split(',')
            .filter(|parameter| !parameter.trim().is_empty());
        let count = parameters.map(|parameter| 1 + usize::from(parameter.contains('[')));
        all.insert(name.trim(), count.sum());
    }
    all
}

/// Header and Rust crate declare the same functions, with as many parameters, those of the library among them.
#[test]
fn functions_of_the_library() {
    let header = read("include/kamfelu.h");
    let outside = header
        .split("/*")
        .map(|part| part.split("*/").last().unwrap());
    let declared = outside
        .collect::<String>()
        .replace(" kamfelu_", " fn kamfelu_");
    let declared = functions(&declared, " fn ");
    let wrapper = read("rust/src/lib.rs");
    let (_, block) = wrapper.split_once("\nextern \"C\" {").expect("a block");
    let block = block.split("\n}").next().expect("its end");
    assert_eq!(functions(block, " fn "), declared);
    let library = read("crates/kamfelu/src/lib.rt");
    for (name, count) in functions(&library, "\npub extern \"C\" fn ") {
        assert_eq!(declared.get(name), Some(&count), "{name}");
    }
}

/// What a caller must know of the stack is one sentence.
#[test]
fn stack_of_a_caller() {
    let sentence = "A call takes less than 256 KiB of the calling thread's stack.";
    for name in [
        "include/kamfelu.h",
        "rust/src/lib.rs",
        "docs/ASSUMPTIONS.md",
        "docs/DECISIONS.md",
    ] {
        assert!(on_one_line(&read(name)).contains(sentence), "{name}");
    }
}

/// README shows the example of the Rust crate as it stands, without the lines at its head.
#[test]
fn example_of_the_crate() {
    let example = read("rust/examples/map_and_mark.rs");
    let (_, code) = example.split_once("\n\n").expect("a head");
    assert!(read("README.md").contains(&format!("```rust\n{code}```")));
}
