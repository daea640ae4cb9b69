//! A folder in memory for a store that wants files; it goes when the store does.

use std::ffi::CString;
use std::path::{Path, PathBuf};
use std::sync::atomic::{AtomicUsize, Ordering};
use std::{env, fs, process};

/// Where Linux has a file system in memory.
const SHARED_MEMORY: &str = "/dev/shm";

static MADE: AtomicUsize = AtomicUsize::new(0);

pub struct Folder(PathBuf);

impl Folder {
    pub fn new(name: &str) -> Folder {
        let memory = Path::new(SHARED_MEMORY);
        let above = if memory.is_dir() { memory.to_path_buf() } else { env::temp_dir() };
        let number = MADE.fetch_add(1, Ordering::Relaxed);
        let path = above.join(format!("zilgwern-bench-{}-{name}-{number}", process::id()));
        fs::create_dir(&path).unwrap_or_else(|error| panic!("{}: {error}", path.display()));
        Folder(path)
    }

    pub fn c_path(&self) -> CString {
        let path = self.0.to_str().expect("a path of our own making");
        CString::new(path).expect("no zero in a path")
    }
}

impl Drop for Folder {
    fn drop(&mut self) {
        // What can't be taken away stays; the system clears this memory when it starts.
        let _ = fs::remove_dir_all(&self.0);
    }
}
