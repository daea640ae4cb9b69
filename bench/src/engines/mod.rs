//! The stores that are compared, and which of them are here.

mod btree;
mod folder;
mod leveldb;
mod library;
mod lmdb;
mod opened;
mod second;
mod sqlite;

pub use opened::{Opened, Versions};
pub use second::Second;
pub use sqlite::Sqlite;

use crate::engine::Engine;
use crate::lists::Listed;
use crate::proved::Proved;
use crate::setup::Setup;

/// A store by the word that names it on the command line.
pub struct Kind {
    pub word: &'static str,
    /// What the table calls it.
    pub title: &'static str,
    /// The Debian package that has its library; none where it is built in.
    pub package: Option<&'static str>,
    /// An empty store, if its library is there; the survey stores are set up like this, the others have nothing of the kind.
    pub open: &'static (dyn Fn(Setup) -> Option<Box<dyn Engine>> + Sync),
}

/// The words of the store that the others are compared with, of an earlier one, and of the second implementation.
pub const PROVED: &str = "zilgwern";
pub const BEFORE: &str = "before";
pub const SECOND: &str = "second";

/// The stores of every run; with an earlier one two opened ones take the place of the first.
pub const KINDS: [Kind; 6] = [
    Kind {
        word: PROVED,
        title: "proved store",
        package: None,
        open: &|setup| boxed(Some(Listed::set_up(Proved, setup))),
    },
    Kind {
        word: SECOND,
        title: "second implementation",
        package: None,
        open: &|setup| boxed(Some(Listed::set_up(Second, setup))),
    },
    Kind {
        word: "btreemap",
        title: "BTreeMap",
        package: None,
        open: &|_| boxed(Some(btree::Tree::default())),
    },
    Kind {
        word: "lmdb",
        title: "LMDB",
        package: Some("liblmdb0"),
        open: &|_| boxed(lmdb::Lmdb::open()),
    },
    Kind {
        word: "leveldb",
        title: "LevelDB",
        package: Some("libleveldb1d"),
        open: &|_| boxed(leveldb::LevelDb::open()),
    },
    Kind {
        word: "sqlite",
        title: "SQLite",
        package: Some("libsqlite3-0"),
        open: &|_| boxed(sqlite::Sqlite::open()),
    },
];

fn boxed<E: Engine + 'static>(engine: Option<E>) -> Option<Box<dyn Engine>> {
    engine.map(|engine| Box::new(engine) as Box<dyn Engine>)
}
