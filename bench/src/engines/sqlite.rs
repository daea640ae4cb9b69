//! SQLite in memory: one table with the key as INTEGER PRIMARY KEY, prepared statements, one transaction for each batch.

use super::library::functions;
use crate::engine::{Engine, SeeEntry, SeeValue, SCANNED};
use crate::workload::{Key, Put};
use std::ffi::{c_char, c_int, c_void, CStr, CString};
use std::ptr::{null, null_mut};
use std::slice::from_raw_parts;

type Handle = *mut c_void;

functions! {
    Functions from "libsqlite3.so.0" {
        fn sqlite3_open_v2(*const c_char, *mut Handle, c_int, *const c_char) -> c_int;
        fn sqlite3_close(Handle) -> c_int;
        fn sqlite3_exec(Handle, *const c_char, Handle, Handle, *mut *mut c_char) -> c_int;
        fn sqlite3_errmsg(Handle) -> *const c_char;
        fn sqlite3_prepare_v2(Handle, *const c_char, c_int, *mut Handle, *mut *const c_char) -> c_int;
        fn sqlite3_finalize(Handle) -> c_int;
        fn sqlite3_bind_int64(Handle, c_int, i64) -> c_int;
        fn sqlite3_bind_blob(Handle, c_int, *const c_void, c_int, Handle) -> c_int;
        fn sqlite3_step(Handle) -> c_int;
        fn sqlite3_reset(Handle) -> c_int;
        fn sqlite3_column_int64(Handle, c_int) -> i64;
        fn sqlite3_column_blob(Handle, c_int) -> *const c_void;
        fn sqlite3_column_bytes(Handle, c_int) -> c_int;
        fn sqlite3_serialize(Handle, *const c_char, *mut i64, c_int) -> *mut u8;
        fn sqlite3_deserialize(Handle, *const c_char, *mut u8, i64, i64, c_int) -> c_int;
        fn sqlite3_malloc64(u64) -> *mut c_void;
        fn sqlite3_free(*mut c_void) -> ();
    }
}

const READWRITE: c_int = 2;
const CREATE: c_int = 4;
const NOMUTEX: c_int = 0x8000;
/// The bytes of a database belong to it, and may become more.
const OWNED: c_int = 1 | 2;
const ROW: c_int = 100;
const DONE: c_int = 101;

const SETUP: &str =
    "PRAGMA journal_mode = OFF; PRAGMA synchronous = OFF; PRAGMA locking_mode = EXCLUSIVE;
    CREATE TABLE kept (key INTEGER PRIMARY KEY, value BLOB NOT NULL);";
const PUT: &str = "INSERT OR REPLACE INTO kept (key, value) VALUES (?1, ?2)";
const LOOK_UP: &str = "SELECT value FROM kept WHERE key = ?1";
const SCAN: &str = "SELECT key, value FROM kept WHERE key >= ?1 ORDER BY key LIMIT 16";

pub struct Sqlite {
    call: Functions,
    database: Handle,
    put: Handle,
    look_up: Handle,
    scan: Handle,
}

/// SQLite's numbers have signs: with the highest bit turned over they compare as the keys do.
fn signed(key: Key) -> i64 {
    (key ^ 1 << 63) as i64
}

fn unsigned(number: i64) -> Key {
    number as u64 ^ 1 << 63
}

impl Sqlite {
    /// None where the library is missing.
    pub fn open() -> Option<Sqlite> {
        let mut sqlite = Sqlite::connect()?;
        sqlite.execute(SETUP);
        sqlite.prepare_all();
        Some(sqlite)
    }

    /// A database in memory without a table.
    fn connect() -> Option<Sqlite> {
        assert_eq!(SCANNED, 16, "the limit in the scan's words");
        let call = Functions::open()?;
        let mut sqlite = Sqlite {
            call,
            database: null_mut(),
            put: null_mut(),
            look_up: null_mut(),
            scan: null_mut(),
        };
        let flags = READWRITE | CREATE | NOMUTEX;
        // SAFETY: the name ends with a zero.
        let status = unsafe {
            (call.sqlite3_open_v2)(c":memory:".as_ptr(), &mut sqlite.database, flags, null())
        };
        sqlite.good("opening", status);
        Some(sqlite)
    }

    fn prepare_all(&mut self) {
        self.put = self.prepare(PUT);
        self.look_up = self.prepare(LOOK_UP);
        self.scan = self.prepare(SCAN);
    }

    /// The whole database as bytes.
    pub fn saved(&self) -> Vec<u8> {
        let mut length = 0;
        // SAFETY: the bytes are the library's and are given back to it.
        unsafe {
            let main = c"main".as_ptr();
            let data = (self.call.sqlite3_serialize)(self.database, main, &mut length, 0);
            assert!(!data.is_null(), "SQLite: no memory for the bytes");
            let bytes = from_raw_parts(data, length as usize).to_vec();
            (self.call.sqlite3_free)(data as *mut c_void);
            bytes
        }
    }

    /// A database from such bytes, looked through as the survey store is by its check.
    pub fn open_saved(bytes: &[u8]) -> Option<Sqlite> {
        let mut sqlite = Sqlite::connect()?;
        let length = bytes.len() as i64;
        // SAFETY: the copy comes from the library's memory and is the database's from now on.
        let status = unsafe {
            let copy = (sqlite.call.sqlite3_malloc64)(length as u64) as *mut u8;
            assert!(!copy.is_null(), "SQLite: no memory for the bytes");
            copy.copy_from_nonoverlapping(bytes.as_ptr(), bytes.len());
            let (call, main) = (sqlite.call.sqlite3_deserialize, c"main".as_ptr());
            call(sqlite.database, main, copy, length, length, OWNED)
        };
        sqlite.good("opening bytes", status);
        let check = sqlite.prepare("PRAGMA quick_check");
        assert!(sqlite.row(check) && sqlite.value(check, 0) == b"ok", "SQLite: a sound database");
        // SAFETY: the statement is not used any more.
        unsafe { (sqlite.call.sqlite3_finalize)(check) };
        sqlite.prepare_all();
        Some(sqlite)
    }

    fn good(&self, what: &str, status: c_int) {
        if status != 0 {
            // SAFETY: the library's words end with a zero.
            let words = unsafe { CStr::from_ptr((self.call.sqlite3_errmsg)(self.database)) };
            panic!("SQLite: {what}: {}", words.to_string_lossy());
        }
    }

    fn execute(&self, words: &str) {
        let sql = CString::new(words).expect("no zero in it");
        // SAFETY: no call back, and no place for words about an error.
        let status = unsafe {
            let (none, no_words) = (null_mut(), null_mut());
            (self.call.sqlite3_exec)(self.database, sql.as_ptr(), none, none, no_words)
        };
        self.good(words, status);
    }

    fn prepare(&self, words: &str) -> Handle {
        let sql = CString::new(words).expect("no zero in it");
        let mut statement = null_mut();
        // SAFETY: the words end with a zero.
        let status = unsafe {
            let end = null_mut();
            (self.call.sqlite3_prepare_v2)(self.database, sql.as_ptr(), -1, &mut statement, end)
        };
        self.good(words, status);
        statement
    }

    /// Whether the statement has a row, or is done.
    fn row(&self, statement: Handle) -> bool {
        // SAFETY: the statement is prepared.
        match unsafe { (self.call.sqlite3_step)(statement) } {
            ROW => true,
            DONE => false,
            status => {
                self.good("a step", status);
                false
            }
        }
    }

    fn bind(&self, statement: Handle, key: Key) {
        // SAFETY: the statement is prepared and has this parameter.
        self.good("a key", unsafe { (self.call.sqlite3_bind_int64)(statement, 1, signed(key)) });
    }

    /// The bytes in a column of the row, which stay until the next step.
    fn value(&self, statement: Handle, column: c_int) -> &[u8] {
        // SAFETY: as said. The library points nowhere where there are no bytes.
        unsafe {
            let data = (self.call.sqlite3_column_blob)(statement, column) as *const u8;
            let length = (self.call.sqlite3_column_bytes)(statement, column) as usize;
            if data.is_null() {
                &[]
            } else {
                from_raw_parts(data, length)
            }
        }
    }

    fn reset(&self, statement: Handle) {
        // SAFETY: the statement is prepared.
        self.good("a reset", unsafe { (self.call.sqlite3_reset)(statement) });
    }
}

impl Engine for Sqlite {
    fn name(&self) -> &'static str {
        "SQLite"
    }

    fn put(&mut self, batch: &[Put]) {
        self.execute("BEGIN");
        for (key, value) in batch {
            self.bind(self.put, *key);
            let (data, length) = (value.as_ptr() as *const c_void, value.len() as c_int);
            // SAFETY: the value stays where it is until the statement is reset.
            let status =
                unsafe { (self.call.sqlite3_bind_blob)(self.put, 2, data, length, null_mut()) };
            self.good("a value", status);
            self.row(self.put);
            self.reset(self.put);
        }
        self.execute("COMMIT");
    }

    fn look_up(&mut self, keys: &[Key], see: &mut SeeValue) {
        self.execute("BEGIN");
        for key in keys {
            self.bind(self.look_up, *key);
            match self.row(self.look_up) {
                true => see(Some(self.value(self.look_up, 0))),
                false => see(None),
            }
            self.reset(self.look_up);
        }
        self.execute("COMMIT");
    }

    fn scan(&mut self, from: &[Key], see: &mut SeeEntry) {
        self.execute("BEGIN");
        for (number, low) in from.iter().enumerate() {
            self.bind(self.scan, *low);
            while self.row(self.scan) {
                // SAFETY: the statement has a row with this column.
                let key = unsafe { (self.call.sqlite3_column_int64)(self.scan, 0) };
                see(number, unsigned(key), self.value(self.scan, 1));
            }
            self.reset(self.scan);
        }
        self.execute("COMMIT");
    }
}

impl Drop for Sqlite {
    fn drop(&mut self) {
        // SAFETY: nothing of the database is used after this.
        unsafe {
            for statement in [self.put, self.look_up, self.scan] {
                (self.call.sqlite3_finalize)(statement);
            }
            (self.call.sqlite3_close)(self.database);
        }
    }
}
