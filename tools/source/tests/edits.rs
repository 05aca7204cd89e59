//! The edits of the source: how they are applied, and what is refused.

#[path = "../build/edit.rs"]
mod edit;

use std::collections::BTreeMap;
use std::env;
use std::fs;
use std::path::PathBuf;
use std::process;
use std::sync::atomic::{AtomicUsize, Ordering};

const A: &str = "one\n  two\ntwo\n\nthree\n";
const B: &str = "aaa é one";

/// A folder that is removed when it goes out of use.
struct Folder(PathBuf);

impl Folder {
    fn of(files: &[(&str, &str)]) -> Self {
        static NUMBER: AtomicUsize = AtomicUsize::new(0);
        let number = NUMBER.fetch_add(1, Ordering::Relaxed);
        let path = env::temp_dir().join(format!("edits-{}-{number}", process::id()));
        fs::create_dir(&path).expect("a new folder");
        for (name, text) in files {
            fs::write(path.join(name), text).expect("a new file");
        }
        Folder(path)
    }
}

impl Drop for Folder {
    fn drop(&mut self) {
        // Nothing useful can be done here if the removal fails.
        let _ = fs::remove_dir_all(&self.0);
    }
}

/// The files a.rs and b.rs after the edits.
fn edited(edits: &[(&str, &str)]) -> Result<[String; 2], String> {
    let folder = Folder::of(edits);
    let files = [("a.rs", A), ("b.rs", B)];
    let mut files = BTreeMap::from(files.map(|(name, text)| (name.to_string(), text.to_string())));
    edit::apply_folder(&folder.0, &mut files)?;
    let texts: Vec<String> = files.into_values().collect();
    Ok(texts.try_into().expect("two files"))
}

/// The files after one edit, given by its lines.
fn edited_by(lines: &[&str]) -> Result<[String; 2], String> {
    edited(&[("x.edit", &lines.join("\n"))])
}

/// The edit is refused with this message, and is named.
#[track_caller]
fn assert_refused(lines: &[&str], message: &str) {
    let error = edited_by(lines).expect_err("a refused edit");
    assert!(error.ends_with(&format!("/x.edit: {message}")), "{error}");
}

#[test]
fn no_edits_change_no_byte() {
    let same = Ok([A.to_string(), B.to_string()]);
    assert_eq!(edited(&[]), same);
    // Only *.edit is an edit.
    let other = "file: a.rs\nold: one\nnew: 1\n";
    assert_eq!(edited(&[("README.md", other), ("edit", other)]), same);
}

#[test]
fn a_text_is_replaced() {
    let edit = ["file: a.rs", "old: three", "new: 3"];
    assert_eq!(edited_by(&edit), Ok([A.replace("three", "3"), B.into()]));
    // Spaces belong to the text, and a file needs no line feed at its end.
    let edit = ["file: a.rs", "old:   two", "new:    2"];
    assert_eq!(edited_by(&edit), Ok([A.replace("  two", "   2"), B.into()]));
    let edit = ["file: b.rs", "old:  é one", "new:"];
    assert_eq!(edited_by(&edit), Ok([A.into(), "aaa".into()]));
}

#[test]
fn texts_may_have_several_lines() {
    let edit = [
        "file: a.rs",
        "old: two",
        "old:",
        "old: three",
        "new: 2",
        "new: ",
        "new: 3",
        "new: 4",
    ];
    let text = "one\n  two\n2\n\n3\n4\n";
    assert_eq!(edited_by(&edit), Ok([text.into(), B.into()]));
}

#[test]
fn an_edit_may_have_several_texts_and_files() {
    let edit = [
        "# why",
        "file: a.rs",
        "old: one",
        "new: two",
        "",
        "old: three",
        "new: 3",
        "file: b.rs",
        "old: one",
        "new: 1",
    ];
    let texts = ["two\n  two\ntwo\n\n3\n", "aaa é 1"].map(String::from);
    assert_eq!(edited_by(&edit), Ok(texts));
}

#[test]
fn edits_come_in_the_order_of_their_names() {
    let first = ("a.edit", "file: a.rs\nold: one\nnew: 1\n");
    let second = ("b.edit", "file: a.rs\nold: 1\nnew: 11\n");
    let texts = [A.replace("one", "11"), B.into()];
    assert_eq!(edited(&[second, first]), Ok(texts));
    let swapped = [("b.edit", first.1), ("a.edit", second.1)];
    let error = edited(&swapped).expect_err("a refused edit");
    assert!(error.ends_with("/a.edit: line 2: the old text is 0 times in a.rs, not once"));
}

#[test]
fn an_old_text_must_be_there_once() {
    let edit = |old| ["file: b.rs", old, "new: x"];
    assert_refused(
        &edit("old: two"),
        "line 2: the old text is 0 times in b.rs, not once",
    );
    assert_refused(
        &edit("old: a"),
        "line 2: the old text is 3 times in b.rs, not once",
    );
    // The two overlap.
    assert_refused(
        &edit("old: aa"),
        "line 2: the old text is 2 times in b.rs, not once",
    );
    let edit = ["file: a.rs", "old: two", "new: 2"];
    assert_refused(&edit, "line 2: the old text is 2 times in a.rs, not once");
    // The text before has taken it away.
    let edit = ["file: a.rs", "old: one", "new: 1", "old: one", "new: 1"];
    assert_refused(&edit, "line 4: the old text is 0 times in a.rs, not once");
}

#[test]
fn a_file_must_be_one_of_the_source() {
    let edit = |file| [file, "old: one", "new: 1"];
    assert_refused(
        &edit("file: c.rs"),
        "line 2: there is no file 'c.rs' to edit",
    );
    assert_refused(
        &edit("file: src/a.rs"),
        "line 2: there is no file 'src/a.rs' to edit",
    );
    let none = "the old text of line 2 has no 'file:' line before it";
    assert_refused(&edit("# none"), none);
    assert_refused(&edit("file:"), none);
}

#[test]
fn a_wrong_form_is_refused() {
    assert_refused(&[], "it has no 'old:' and 'new:' lines");
    assert_refused(&["file: a.rs"], "it has no 'old:' and 'new:' lines");
    let kinds = "it begins with none of 'file: ', 'old: ', 'new: ' and '#'";
    for line in [
        "old:one",
        "new:1",
        "file:a.rs",
        "text",
        " old: one",
        "Old: one",
    ] {
        assert_refused(&["file: a.rs", line], &format!("line 2: {kinds}"));
    }
    let without = "line 2: a 'new:' line with no 'old:' line before it";
    assert_refused(&["file: a.rs", "new: 1"], without);
    let without = "the old text of line 2 has no 'new:' line after it";
    assert_refused(&["file: a.rs", "old: one"], without);
    let edit = ["file: a.rs", "old: one", "file: b.rs", "new: 1"];
    assert_refused(&edit, &format!("line 3: {without}"));
    let empty = "the old text of line 2 is empty";
    assert_refused(&["file: a.rs", "old:", "new: 1"], empty);
    assert_refused(&["file: a.rs", "old: ", "new: 1"], empty);
}

#[test]
fn a_folder_must_be_there() {
    let error = edit::apply_folder("/no/such/folder".as_ref(), &mut BTreeMap::new());
    assert!(error.unwrap_err().starts_with("/no/such/folder: "));
}
