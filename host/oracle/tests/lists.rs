//! The lists of what the original put out, replayed against the library. This needs no original.

use std::fs;
use std::path::PathBuf;
use std::process::Command;

/// The lists in that folder of crates/replay.
fn lists(folder: &str) -> Vec<PathBuf> {
    let folder = PathBuf::from(env!("CARGO_MANIFEST_DIR")).join("../../crates/replay").join(folder);
    let files = fs::read_dir(folder).expect("the folder is there").map(|file| file.expect("a file").path());
    files.filter(|file| file.extension().is_some_and(|end| end == "txt")).collect()
}

/// Whether the lists agree, and what the oracle prints of them.
fn replay(files: &[PathBuf]) -> (bool, String) {
    let output = Command::new(env!("CARGO_BIN_EXE_oracle"))
        .arg("replay")
        .args(files)
        .output()
        .expect("the oracle runs");
    let printed = [output.stdout, output.stderr].concat();
    (output.status.success(), String::from_utf8(printed).expect("the oracle prints text"))
}

#[test]
fn the_library_does_what_the_original_did() {
    let files = lists("data");
    assert!(files.len() >= 8, "{} lists", files.len());
    let (agree, text) = replay(&files);
    assert!(agree, "{text}");
    assert!(text.ends_with(&format!("{} lists replayed, 0 with a difference\n", files.len())), "{text}");
}

/// In each list, one digit changed in the last packet that the original put out.
#[test]
fn a_spoiled_list_is_found() {
    for (place, file) in lists("data").iter().enumerate() {
        let text = fs::read_to_string(file).expect("a list");
        let line =
            text.lines().rev().find(|line| line.starts_with('>')).expect("the original put out packets");
        let at = text.rfind(line).expect("the line is in the text") + 2;
        let digit = if &text[at..=at] == "0" { "1" } else { "0" };
        let spoiled = PathBuf::from(env!("CARGO_TARGET_TMPDIR")).join(format!("spoiled-{place}.txt"));
        fs::write(&spoiled, [&text[..at], digit, &text[at + 1..]].concat()).expect("a file can be written");
        let (agree, said) = replay(&[spoiled]);
        assert!(!agree && said.contains("call "), "{}: {said}", file.display());
    }
}

/// In each list below data/spoiled one thing is changed, and its first line says what that leads to. A line that is not
/// of the form makes it no list here, anything else is a difference.
#[test]
fn each_kind_of_change_is_found() {
    let files = lists("data/spoiled");
    assert!(files.len() >= 20, "{} lists", files.len());
    for file in files {
        let text = fs::read_to_string(&file).expect("a list");
        let differs = text.lines().next().and_then(|line| line.strip_prefix("# differs: "));
        let (place, why) = differs.and_then(|text| text.split_once(": ")).expect("what differs, and where");
        let (agree, said) = replay(&[file]);
        let found = if why == "it is not of the form" {
            said.contains(&format!(": {place}: '")) && said.contains("' is not of the form\n")
        } else {
            said.ends_with("\n1 lists replayed, 1 with a difference\n")
        };
        assert!(!agree && found, "{place}: {why}: {said}");
    }
}
