//! LMDB on a folder in memory: no syncs, a writable map, whole numbers as keys, one transaction for each batch.

use super::folder::Folder;
use super::library::functions;
use crate::engine::{Engine, SeeEntry, SeeValue, SCANNED};
use crate::workload::{Key, Put};
use std::ffi::{c_char, c_int, c_uint, c_void};
use std::ptr::null_mut;
use std::slice::from_raw_parts;

const NOMETASYNC: c_uint = 0x40000;
const NOSYNC: c_uint = 0x10000;
const WRITEMAP: c_uint = 0x80000;
const NORDAHEAD: c_uint = 0x800000;
const NOMEMINIT: c_uint = 0x1000000;
const RDONLY: c_uint = 0x20000;
const INTEGERKEY: c_uint = 0x08;

const NOTFOUND: c_int = -30798;
const NEXT: c_int = 8;
const SET_RANGE: c_int = 17;

/// Far more than any size of store here takes.
const MAP_BYTES: usize = 1 << 30;

/// An MDB_val.
#[repr(C)]
struct Bytes {
    size: usize,
    data: *mut c_void,
}

impl Bytes {
    fn of<T: ?Sized>(data: &T) -> Bytes {
        Bytes { size: size_of_val(data), data: data as *const T as *mut c_void }
    }

    const NONE: Bytes = Bytes { size: 0, data: null_mut() };
}

type Handle = *mut c_void;

functions! {
    Functions from "liblmdb.so.0" {
        fn mdb_env_create(*mut Handle) -> c_int;
        fn mdb_env_set_mapsize(Handle, usize) -> c_int;
        fn mdb_env_open(Handle, *const c_char, c_uint, c_uint) -> c_int;
        fn mdb_env_close(Handle);
        fn mdb_txn_begin(Handle, Handle, c_uint, *mut Handle) -> c_int;
        fn mdb_txn_commit(Handle) -> c_int;
        fn mdb_txn_abort(Handle);
        fn mdb_txn_reset(Handle);
        fn mdb_txn_renew(Handle) -> c_int;
        fn mdb_dbi_open(Handle, *const c_char, c_uint, *mut c_uint) -> c_int;
        fn mdb_put(Handle, c_uint, *mut Bytes, *mut Bytes, c_uint) -> c_int;
        fn mdb_get(Handle, c_uint, *mut Bytes, *mut Bytes) -> c_int;
        fn mdb_cursor_open(Handle, c_uint, *mut Handle) -> c_int;
        fn mdb_cursor_renew(Handle, Handle) -> c_int;
        fn mdb_cursor_close(Handle);
        fn mdb_cursor_get(Handle, *mut Bytes, *mut Bytes, c_int) -> c_int;
    }
}

pub struct Lmdb {
    call: Functions,
    environment: Handle,
    database: c_uint,
    /// The reading transaction, reset between batches, and its cursor.
    reading: Handle,
    cursor: Handle,
    _folder: Folder,
}

fn good(what: &str, status: c_int) {
    assert_eq!(status, 0, "LMDB: status of {what}");
}

impl Lmdb {
    /// None where the library is missing.
    pub fn open() -> Option<Lmdb> {
        let call = Functions::open()?;
        let folder = Folder::new("lmdb");
        let path = folder.c_path();
        let mut lmdb = Lmdb {
            call,
            environment: null_mut(),
            database: 0,
            reading: null_mut(),
            cursor: null_mut(),
            _folder: folder,
        };
        let flags = NOSYNC | NOMETASYNC | WRITEMAP | NORDAHEAD | NOMEMINIT;
        // SAFETY: handles are passed on as the library gave them, in the order that its documentation asks for.
        unsafe {
            good("mdb_env_create", (call.mdb_env_create)(&mut lmdb.environment));
            good("mdb_env_set_mapsize", (call.mdb_env_set_mapsize)(lmdb.environment, MAP_BYTES));
            good(
                "mdb_env_open",
                (call.mdb_env_open)(lmdb.environment, path.as_ptr(), flags, 0o600),
            );
            let writing = lmdb.begin(0);
            let name = std::ptr::null();
            let opened = (call.mdb_dbi_open)(writing, name, INTEGERKEY, &mut lmdb.database);
            good("mdb_dbi_open", opened);
            good("mdb_txn_commit", (call.mdb_txn_commit)(writing));
            lmdb.reading = lmdb.begin(RDONLY);
            let opened = (call.mdb_cursor_open)(lmdb.reading, lmdb.database, &mut lmdb.cursor);
            good("mdb_cursor_open", opened);
            (call.mdb_txn_reset)(lmdb.reading);
        }
        Some(lmdb)
    }

    fn begin(&self, flags: c_uint) -> Handle {
        let mut transaction = null_mut();
        // SAFETY: the environment is open.
        let status = unsafe {
            (self.call.mdb_txn_begin)(self.environment, null_mut(), flags, &mut transaction)
        };
        good("mdb_txn_begin", status);
        transaction
    }

    fn renew(&mut self) {
        // SAFETY: the transaction was reset.
        good("mdb_txn_renew", unsafe { (self.call.mdb_txn_renew)(self.reading) });
    }

    /// Moves the cursor; none behind the last key.
    fn at(&mut self, from: Option<&Key>, how: c_int) -> Option<(Key, &[u8])> {
        let mut key = from.map_or(Bytes::NONE, Bytes::of);
        let mut value = Bytes::NONE;
        // SAFETY: what the library points at stays until the transaction is reset.
        unsafe {
            match (self.call.mdb_cursor_get)(self.cursor, &mut key, &mut value, how) {
                NOTFOUND => return None,
                status => good("mdb_cursor_get", status),
            }
            let key = (key.data as *const Key).read_unaligned();
            Some((key, from_raw_parts(value.data as *const u8, value.size)))
        }
    }
}

impl Engine for Lmdb {
    fn name(&self) -> &'static str {
        "LMDB"
    }

    fn put(&mut self, batch: &[Put]) {
        let writing = self.begin(0);
        for (key, value) in batch {
            let (mut key, mut value) = (Bytes::of(key), Bytes::of(&value[..]));
            // SAFETY: key and value are only read.
            let status =
                unsafe { (self.call.mdb_put)(writing, self.database, &mut key, &mut value, 0) };
            good("mdb_put", status);
        }
        // SAFETY: the transaction is open.
        good("mdb_txn_commit", unsafe { (self.call.mdb_txn_commit)(writing) });
    }

    fn look_up(&mut self, keys: &[Key], see: &mut SeeValue) {
        self.renew();
        for key in keys {
            let (mut key, mut value) = (Bytes::of(key), Bytes::NONE);
            // SAFETY: what the library points at stays until the transaction is reset.
            unsafe {
                match (self.call.mdb_get)(self.reading, self.database, &mut key, &mut value) {
                    0 => see(Some(from_raw_parts(value.data as *const u8, value.size))),
                    NOTFOUND => see(None),
                    status => good("mdb_get", status),
                }
            }
        }
        // SAFETY: the transaction is open.
        unsafe { (self.call.mdb_txn_reset)(self.reading) };
    }

    fn scan(&mut self, from: &[Key], see: &mut SeeEntry) {
        self.renew();
        // SAFETY: cursor and transaction belong together.
        let status = unsafe { (self.call.mdb_cursor_renew)(self.reading, self.cursor) };
        good("mdb_cursor_renew", status);
        for (number, low) in from.iter().enumerate() {
            let mut found = self.at(Some(low), SET_RANGE);
            for left in (0..SCANNED).rev() {
                let Some((key, value)) = found else { break };
                see(number, key, value);
                found = if left == 0 { None } else { self.at(None, NEXT) };
            }
        }
        // SAFETY: the transaction is open.
        unsafe { (self.call.mdb_txn_reset)(self.reading) };
    }
}

impl Drop for Lmdb {
    fn drop(&mut self) {
        // SAFETY: nothing of the environment is used after this.
        unsafe {
            (self.call.mdb_cursor_close)(self.cursor);
            (self.call.mdb_txn_abort)(self.reading);
            (self.call.mdb_env_close)(self.environment);
        }
    }
}
