//! LevelDB on a folder in memory: big-endian keys, no compression, the write buffer that it comes with, one write batch for each
//! batch.

use super::folder::Folder;
use super::library::functions;
use crate::engine::{Engine, SeeEntry, SeeValue, SCANNED};
use crate::workload::{Key, Put};
use std::ffi::{c_char, c_int, c_uchar, c_void, CStr};
use std::ptr::null_mut;
use std::slice::from_raw_parts;

type Handle = *mut c_void;

functions! {
    Functions from "libleveldb.so.1d" {
        fn leveldb_options_create() -> Handle;
        fn leveldb_options_set_create_if_missing(Handle, c_uchar);
        fn leveldb_options_set_compression(Handle, c_int);
        fn leveldb_options_set_filter_policy(Handle, Handle);
        fn leveldb_options_destroy(Handle);
        fn leveldb_filterpolicy_create_bloom(c_int) -> Handle;
        fn leveldb_filterpolicy_destroy(Handle);
        fn leveldb_open(Handle, *const c_char, *mut *mut c_char) -> Handle;
        fn leveldb_close(Handle);
        fn leveldb_writeoptions_create() -> Handle;
        fn leveldb_writeoptions_destroy(Handle);
        fn leveldb_readoptions_create() -> Handle;
        fn leveldb_readoptions_destroy(Handle);
        fn leveldb_writebatch_create() -> Handle;
        fn leveldb_writebatch_clear(Handle);
        fn leveldb_writebatch_put(Handle, *const c_char, usize, *const c_char, usize);
        fn leveldb_writebatch_destroy(Handle);
        fn leveldb_write(Handle, Handle, Handle, *mut *mut c_char);
        fn leveldb_get(Handle, Handle, *const c_char, usize, *mut usize, *mut *mut c_char) -> *mut c_char;
        fn leveldb_free(Handle);
        fn leveldb_create_iterator(Handle, Handle) -> Handle;
        fn leveldb_iter_seek(Handle, *const c_char, usize);
        fn leveldb_iter_valid(Handle) -> c_uchar;
        fn leveldb_iter_next(Handle);
        fn leveldb_iter_key(Handle, *mut usize) -> *const c_char;
        fn leveldb_iter_value(Handle, *mut usize) -> *const c_char;
        fn leveldb_iter_destroy(Handle);
    }
}

/// Bits of the Bloom filter for each key of a table.
const FILTER_BITS: c_int = 10;
const NO_COMPRESSION: c_int = 0;

pub struct LevelDb {
    call: Functions,
    database: Handle,
    options: Handle,
    filter: Handle,
    writing: Handle,
    reading: Handle,
    batch: Handle,
    _folder: Folder,
}

/// Ends the bench where the library gave an error.
fn good(what: &str, error: *mut c_char) {
    if !error.is_null() {
        // SAFETY: the library's errors end with a zero.
        let words = unsafe { CStr::from_ptr(error) };
        panic!("LevelDB: {what}: {}", words.to_string_lossy());
    }
}

impl LevelDb {
    /// None where the library is missing.
    pub fn open() -> Option<LevelDb> {
        let call = Functions::open()?;
        let folder = Folder::new("leveldb");
        let path = folder.c_path();
        let mut error = null_mut();
        // SAFETY: handles are passed on as the library gave them.
        unsafe {
            let options = (call.leveldb_options_create)();
            let filter = (call.leveldb_filterpolicy_create_bloom)(FILTER_BITS);
            (call.leveldb_options_set_create_if_missing)(options, 1);
            (call.leveldb_options_set_compression)(options, NO_COMPRESSION);
            (call.leveldb_options_set_filter_policy)(options, filter);
            let database = (call.leveldb_open)(options, path.as_ptr(), &mut error);
            good("opening", error);
            Some(LevelDb {
                call,
                database,
                options,
                filter,
                writing: (call.leveldb_writeoptions_create)(),
                reading: (call.leveldb_readoptions_create)(),
                batch: (call.leveldb_writebatch_create)(),
                _folder: folder,
            })
        }
    }
}

/// A key whose bytes compare as the number does.
fn bytes_of(key: Key) -> [u8; 8] {
    key.to_be_bytes()
}

/// The bytes that the library points at.
unsafe fn shown<'a>(data: *const c_char, size: usize) -> &'a [u8] {
    from_raw_parts(data as *const u8, size)
}

impl Engine for LevelDb {
    fn name(&self) -> &'static str {
        "LevelDB"
    }

    fn put(&mut self, batch: &[Put]) {
        let mut error = null_mut();
        // SAFETY: the batch copies keys and values.
        unsafe {
            (self.call.leveldb_writebatch_clear)(self.batch);
            for (key, value) in batch {
                let key = bytes_of(*key);
                let (start, data) =
                    (key.as_ptr() as *const c_char, value.as_ptr() as *const c_char);
                (self.call.leveldb_writebatch_put)(self.batch, start, 8, data, value.len());
            }
            (self.call.leveldb_write)(self.database, self.writing, self.batch, &mut error);
        }
        good("writing", error);
    }

    fn look_up(&mut self, keys: &[Key], see: &mut SeeValue) {
        for key in keys {
            let key = bytes_of(*key);
            let (mut size, mut error) = (0, null_mut());
            // SAFETY: the value is copied memory, which is freed once.
            unsafe {
                let key = key.as_ptr() as *const c_char;
                let value = (self.call.leveldb_get)(
                    self.database,
                    self.reading,
                    key,
                    8,
                    &mut size,
                    &mut error,
                );
                good("reading", error);
                if value.is_null() {
                    see(None);
                } else {
                    see(Some(shown(value, size)));
                    (self.call.leveldb_free)(value as Handle);
                }
            }
        }
    }

    fn scan(&mut self, from: &[Key], see: &mut SeeEntry) {
        // SAFETY: what the iterator points at stays until it moves.
        unsafe {
            let iterator = (self.call.leveldb_create_iterator)(self.database, self.reading);
            for (number, low) in from.iter().enumerate() {
                let low = bytes_of(*low);
                (self.call.leveldb_iter_seek)(iterator, low.as_ptr() as *const c_char, 8);
                for _ in 0..SCANNED {
                    if (self.call.leveldb_iter_valid)(iterator) == 0 {
                        break;
                    }
                    let mut size = 0;
                    let key = (self.call.leveldb_iter_key)(iterator, &mut size);
                    let key = shown(key, size).try_into().expect("a key of eight bytes");
                    let value = (self.call.leveldb_iter_value)(iterator, &mut size);
                    see(number, Key::from_be_bytes(key), shown(value, size));
                    (self.call.leveldb_iter_next)(iterator);
                }
            }
            (self.call.leveldb_iter_destroy)(iterator);
        }
    }
}

impl Drop for LevelDb {
    fn drop(&mut self) {
        // SAFETY: nothing of the database is used after this.
        unsafe {
            (self.call.leveldb_writebatch_destroy)(self.batch);
            (self.call.leveldb_close)(self.database);
            (self.call.leveldb_writeoptions_destroy)(self.writing);
            (self.call.leveldb_readoptions_destroy)(self.reading);
            (self.call.leveldb_options_destroy)(self.options);
            (self.call.leveldb_filterpolicy_destroy)(self.filter);
        }
    }
}
