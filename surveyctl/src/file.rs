//! The file that keeps a store between calls.

use crate::failure::Failure;
use crate::form::{self, Opened};
use crate::options::Options;
use crate::{disk, Streams};
use std::fs;
use std::io::{self, ErrorKind, Write};
use std::path::Path;
use zilgwern::Store;

pub struct StoreFile {
    name: String,
    /// What the file held when it was read or written last.
    found: Vec<u8>,
    /// The bytes that the store was kept by then; others where the file has the older form.
    kept: Vec<u8>,
}

/// `new`: makes a store and keeps it in a file that does not exist yet.
pub fn make(options: &Options, streams: &mut Streams) -> Result<(), Failure> {
    let Some(name) = &options.store else {
        return Err(Failure::usage("new", "name the file with --store FILE"));
    };
    let (places, threshold) = (options.places(), options.threshold);
    make_of(name, &mut Store::owned(places, threshold)?)?;
    writeln!(streams.out, "a new store of {places} places with threshold {threshold} in {name}")?;
    Ok(())
}

/// Keeps a store in a file that does not exist yet.
pub fn make_of(name: &str, store: &mut Store) -> Result<(), Failure> {
    make_file(name, &form::bytes_of(store)?)
}

/// Writes a file that does not exist yet.
pub fn make_file(name: &str, bytes: &[u8]) -> Result<(), Failure> {
    disk::place(Path::new(name), bytes).map_err(|error| unmade(name, error))
}

/// Why no file was made.
pub fn unmade(name: &str, error: io::Error) -> Failure {
    match error.kind() {
        ErrorKind::AlreadyExists => Failure::file(name, "is there already, and is left as it is"),
        _ => Failure::file(name, error),
    }
}

impl StoreFile {
    /// Reads a file and opens the store in it, if it is sound. A file of the older form is told to be one.
    pub fn open(name: &str, err: &mut dyn Write) -> Result<(StoreFile, Store<'static>), Failure> {
        if let Ok(named) = fs::canonicalize(name) {
            disk::remove_left(&named);
        }
        let read = disk::read(Path::new(name), form::MOST_BYTES + 1);
        let found = read.map_err(|error| match error.kind() {
            ErrorKind::NotFound => {
                let hint = format!("make one with `surveyctl --store {name} new`");
                Failure::file(name, format!("there is no such file; {hint}"))
            }
            _ => Failure::file(name, error),
        })?;
        let Opened { mut store, old } = form::open(&found).map_err(|failure| failure.at(name))?;
        if old {
            let words = "is of the older form; it is read, and the next change writes the new form";
            // Who does not want to hear it is no reason to stop.
            let _ = writeln!(err, "surveyctl: {name}: {words}");
        }
        let kept = form::bytes_of(&mut store)?;
        Ok((StoreFile { name: name.into(), found, kept }, store))
    }

    /// Keeps the store as it is now. The file is replaced whole, so that it is never half written; if another program has
    /// changed it since it was read, it is left alone.
    pub fn keep(&mut self, store: &mut Store) -> Result<(), Failure> {
        let bytes = form::bytes_of(store)?;
        if bytes == self.kept {
            return Ok(());
        }
        match self.replaced(&bytes).map_err(|error| Failure::file(&self.name, error))? {
            true => (self.found, self.kept) = (bytes.clone(), bytes),
            false => {
                let words =
                    "has been changed by another program since it was read; nothing is kept";
                return Err(Failure::file(&self.name, words));
            }
        }
        Ok(())
    }

    /// Puts these bytes in place of those that were read; false where others stand there by now.
    fn replaced(&self, bytes: &[u8]) -> io::Result<bool> {
        // A symbolic link stays, and the file that it names is replaced.
        let name = fs::canonicalize(&self.name)?;
        let held = disk::locked(&name)?;
        if disk::read(&name, form::MOST_BYTES + 1)? != self.found {
            return Ok(false);
        }
        let permissions = held.metadata()?.permissions();
        if permissions.readonly() {
            // The folder would let it be replaced all the same.
            return Err(io::Error::new(ErrorKind::PermissionDenied, "is read-only"));
        }
        disk::replace(&name, bytes, permissions)?;
        Ok(true)
    }

    /// Refuses to write something else over the store.
    pub fn spare(&self, name: &str) -> Result<(), Failure> {
        match disk::same_file(&self.name, name) {
            true => Err(Failure::Words(format!("{name}: is the store's own file; name another"))),
            false => Ok(()),
        }
    }
}
