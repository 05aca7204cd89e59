//! A temporary file that is removed when it goes out of use, or kept.

use std::env;
use std::fs::{self, OpenOptions};
use std::io::Write;
use std::mem;
use std::path::{Path, PathBuf};
use std::process;
use std::sync::atomic::{AtomicUsize, Ordering};

/// Makes the names of one process different.
static NUMBER: AtomicUsize = AtomicUsize::new(0);

pub struct TempFile(PathBuf);

impl TempFile {
    pub fn new(bytes: &[u8]) -> Result<Self, String> {
        let number = NUMBER.fetch_add(1, Ordering::Relaxed);
        let path = env::temp_dir().join(format!("vectors-{}-{number}", process::id()));
        // `create_new`: a file that is already there belongs to someone else.
        let mut file = OpenOptions::new()
            .write(true)
            .create_new(true)
            .open(&path)
            .map_err(|error| format!("{}: {error}", path.display()))?;
        let temporary = TempFile(path);
        file.write_all(bytes)
            .map_err(|error| format!("{}: {error}", temporary.path().display()))?;
        Ok(temporary)
    }

    pub fn path(&self) -> &Path {
        &self.0
    }

    /// The path as an argument of another program.
    pub fn text_path(&self) -> Result<&str, String> {
        self.0
            .to_str()
            .ok_or_else(|| format!("{}: the path is not UTF-8", self.0.display()))
    }

    /// Leaves the file where it is.
    pub fn keep(mut self) -> PathBuf {
        let path = mem::take(&mut self.0);
        mem::forget(self);
        path
    }
}

impl Drop for TempFile {
    fn drop(&mut self) {
        // Nothing useful can be done here if the removal fails.
        let _ = fs::remove_file(&self.0);
    }
}

#[cfg(test)]
mod tests {
    use super::*;

    #[test]
    fn holds_its_bytes_and_goes() {
        let file = TempFile::new(b"abc").unwrap();
        let path = file.path().to_path_buf();
        assert_eq!(fs::read(&path).unwrap(), b"abc");
        drop(file);
        assert!(!path.exists());
    }

    #[test]
    fn stays_if_it_is_kept() {
        let path = TempFile::new(b"abc").unwrap().keep();
        assert_eq!(fs::read(&path).unwrap(), b"abc");
        fs::remove_file(path).unwrap();
    }
}
