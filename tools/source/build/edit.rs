//! The edits that make the reference of the source. `edits/README.md` has their
//! form.

use std::collections::BTreeMap;
use std::fs;
use std::io;
use std::mem;
use std::path::{Path, PathBuf};

/// Applies all edits of a folder to files, given by name and text: in the order
/// of the edits' names, each to what the ones before it have left.
pub fn apply_folder(folder: &Path, files: &mut BTreeMap<String, String>) -> Result<(), String> {
    for path in edits_of(folder).map_err(|error| format!("{}: {error}", folder.display()))? {
        let edit = fs::read_to_string(&path).map_err(|error| error.to_string());
        edit.and_then(|edit| apply(&edit, files))
            .map_err(|error| format!("{}: {error}", path.display()))?;
    }
    Ok(())
}

fn edits_of(folder: &Path) -> io::Result<Vec<PathBuf>> {
    let paths = fs::read_dir(folder)?.map(|entry| Ok(entry?.path()));
    let mut paths = paths.collect::<io::Result<Vec<PathBuf>>>()?;
    paths.retain(|path| path.extension().is_some_and(|end| end == "edit"));
    paths.sort();
    Ok(paths)
}

/// Applies one edit, given by its text.
fn apply(edit: &str, files: &mut BTreeMap<String, String>) -> Result<(), String> {
    for replacement in replacements(edit)? {
        let line = replacement.line;
        replace(&replacement, files).map_err(|error| format!("line {line}: {error}"))?;
    }
    Ok(())
}

/// A text of a file, and the text that takes its place.
struct Replacement {
    file: String,
    old: String,
    new: String,
    /// Where it begins in the edit.
    line: usize,
}

fn replace(wanted: &Replacement, files: &mut BTreeMap<String, String>) -> Result<(), String> {
    let Replacement { file, old, new, .. } = wanted;
    let text = files
        .get_mut(file)
        .ok_or(format!("there is no file '{file}' to edit"))?;
    // Every place counts, also one that overlaps another.
    let starts = text.char_indices().map(|(start, _)| start);
    let places: Vec<usize> = starts
        .filter(|&start| text[start..].starts_with(old))
        .collect();
    let [start] = places[..] else {
        let count = places.len();
        return Err(format!("the old text is {count} times in {file}, not once"));
    };
    text.replace_range(start..start + old.len(), new);
    Ok(())
}

fn replacements(edit: &str) -> Result<Vec<Replacement>, String> {
    let mut reader = Reader::default();
    for (number, line) in (1..).zip(edit.lines()) {
        reader
            .take(number, line)
            .map_err(|error| format!("line {number}: {error}"))?;
    }
    reader.end_pair()?;
    if reader.replacements.is_empty() {
        return Err("it has no 'old:' and 'new:' lines".to_string());
    }
    Ok(reader.replacements)
}

/// An edit as far as it has been read. The lines of the last replacement are
/// kept until it is clear that no more belong to it.
#[derive(Default)]
struct Reader<'a> {
    replacements: Vec<Replacement>,
    file: &'a str,
    begin: usize,
    old: Vec<&'a str>,
    new: Vec<&'a str>,
}

impl<'a> Reader<'a> {
    fn take(&mut self, number: usize, line: &'a str) -> Result<(), String> {
        if let Some(name) = text_after("file:", line) {
            self.end_pair()?;
            self.file = name;
        } else if let Some(text) = text_after("old:", line) {
            if !self.new.is_empty() {
                self.end_pair()?;
            }
            if self.old.is_empty() {
                self.begin = number;
            }
            self.old.push(text);
        } else if let Some(text) = text_after("new:", line) {
            if self.old.is_empty() {
                return Err("a 'new:' line with no 'old:' line before it".to_string());
            }
            self.new.push(text);
        } else if !line.is_empty() && !line.starts_with('#') {
            return Err("it begins with none of 'file: ', 'old: ', 'new: ' and '#'".to_string());
        }
        Ok(())
    }

    fn end_pair(&mut self) -> Result<(), String> {
        if self.old.is_empty() {
            return Ok(());
        }
        let replacement = Replacement {
            file: self.file.to_string(),
            old: mem::take(&mut self.old).join("\n"),
            new: self.new.join("\n"),
            line: self.begin,
        };
        let has_new = !mem::take(&mut self.new).is_empty();
        match fault(&replacement, has_new) {
            Some(fault) => Err(format!("the old text of line {} {fault}", self.begin)),
            None => {
                self.replacements.push(replacement);
                Ok(())
            }
        }
    }
}

fn fault(replacement: &Replacement, has_new: bool) -> Option<&'static str> {
    if replacement.file.is_empty() {
        Some("has no 'file:' line before it")
    } else if replacement.old.is_empty() {
        Some("is empty")
    } else if !has_new {
        Some("has no 'new:' line after it")
    } else {
        None
    }
}

/// What stands after the key and a space. An empty text needs no space.
fn text_after<'a>(key: &str, line: &'a str) -> Option<&'a str> {
    match line.strip_prefix(key)? {
        "" => Some(""),
        rest => rest.strip_prefix(' '),
    }
}
