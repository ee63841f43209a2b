//! The stored outputs of examples/ are the model's.

use referee::{explain, text, trail};
use std::fs;
use std::path::PathBuf;

#[test]
fn stored_outputs() {
    let folder = PathBuf::from(env!("CARGO_MANIFEST_DIR")).join("../examples");
    let files = fs::read_dir(folder).expect("examples/ is there");
    let mut count = 0;
    for file in files.map(|entry| entry.expect("an entry").path()) {
        if file.extension().is_none_or(|extension| extension != "txt") {
            continue;
        }
        let text = fs::read_to_string(&file).expect("the text can be read");
        let comments = text.lines().take_while(|line| line.starts_with("# "));
        assert_eq!(
            comments.count(),
            2,
            "{file:?} begins with two lines of comment"
        );
        let bytes = text::to_bytes(&text).expect("the text can be parsed");
        let stored = fs::read_to_string(file.with_extension("out")).expect("the output is stored");
        assert_eq!(trail::output(&bytes), stored, "{file:?}");
        assert!(explain::explain(&bytes, &stored).is_ok());
        count += 1;
    }
    assert!(count >= 12, "only {count} examples");
}
