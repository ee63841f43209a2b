//! The list of modules in lib.rs is their order: each uses only those before it, so there is no circle.

use std::fs;
use std::path::{Path, PathBuf};

fn sources() -> PathBuf {
    PathBuf::from(env!("CARGO_MANIFEST_DIR")).join("src")
}

fn read(file: &Path) -> String {
    fs::read_to_string(file).expect("the source can be read")
}

/// The modules in the order of lib.rs's first comment.
fn listed() -> Vec<String> {
    let text = read(&sources().join("lib.rs"));
    let rows = text.lines().filter_map(|line| line.strip_prefix("//! - "));
    let names = rows.filter_map(|row| row.split_once(':'));
    let quoted = names.flat_map(|(names, _)| names.split('`').skip(1).step_by(2));
    quoted.map(str::to_string).collect()
}

/// What a module's files have after `crate::`. The macro `worded` is one of `lists`.
fn used(module: &str) -> Vec<String> {
    let folder = sources().join(module);
    let mut files = vec![sources().join(module).with_extension("rs")];
    if folder.is_dir() {
        let entries = fs::read_dir(folder).expect("the folder can be read");
        files = entries
            .map(|entry| entry.expect("an entry").path())
            .collect();
    }
    let text: String = files.iter().map(|file| read(file)).collect();
    let uses = text.split("crate::").skip(1);
    let name = |rest: &str| {
        let end = rest.find(|letter: char| !letter.is_alphanumeric() && letter != '_');
        rest[..end.unwrap_or(rest.len())].replace("worded", "lists")
    };
    uses.map(name).collect()
}

#[test]
fn each_module_uses_only_those_before_it() {
    let order = listed();
    let text = read(&sources().join("lib.rs"));
    let declared = text.lines().filter(|line| line.contains("mod ")).count();
    assert_eq!(order.len(), declared, "every module is listed once");
    for (place, module) in order.iter().enumerate() {
        for other in used(module) {
            assert!(
                order[..place].contains(&other),
                "{module} uses {other}, which is not before it"
            );
        }
    }
}
