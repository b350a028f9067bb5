//! Every public type and function of the crate has an example, which runs as a test.

use std::fs;
use std::path::Path;

/// The source files that the crate's own types stand in; `entry` has the functions of C, which the header documents.
fn sources() -> Vec<String> {
    let folder = Path::new(env!("CARGO_MANIFEST_DIR")).join("src");
    let files = fs::read_dir(folder).unwrap().map(|file| file.unwrap().path());
    let own = files.filter(|path| !path.ends_with("entry.rs"));
    own.map(|path| fs::read_to_string(path).unwrap()).collect()
}

/// Names of public types and free functions, each with the lines of documentation in front of it.
fn documented(text: &str) -> Vec<(String, String)> {
    let (mut items, mut documentation) = (vec![], String::new());
    for line in text.lines() {
        let words: Vec<&str> = line.split([' ', '(', '<', '{', ';']).collect();
        match words[..] {
            ["pub", "struct" | "enum" | "fn", name, ..] => items.push((name.to_string(), documentation.clone())),
            _ if line.trim_start().starts_with("///") => documentation.push_str(line),
            _ if line.trim_start().starts_with("#[") => {}
            _ => documentation.clear(),
        }
    }
    items
}

/// The types that the macro `numbered` makes: it is given their documentation and then their names.
fn numbered(text: &str) -> Vec<(String, String)> {
    let blocks = text.split("\nnumbered! {\n").skip(1);
    blocks
        .map(|block| {
            let (documentation, rest): (Vec<&str>, Vec<&str>) = block.lines().partition(|line| line.starts_with("    ///"));
            (rest[0].replace('{', "").trim().to_string(), documentation.concat())
        })
        .collect()
}

#[test]
fn each_public_type_has_an_example() {
    let found: Vec<_> = sources()
        .iter()
        .flat_map(|text| [documented(text), numbered(text)].concat())
        .collect();
    for (name, documentation) in &found {
        assert!(documentation.contains("```"), "{name} has no example");
    }
    let names: Vec<&str> = found.iter().map(|(name, _)| name.as_str()).collect();
    for name in ["Controller", "Outcome", "Refusal", "EventId", "encode_time_zones", "replay"] {
        assert!(names.contains(&name), "{name} is not found");
    }
}
