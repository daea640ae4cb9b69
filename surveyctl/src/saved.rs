//! `save`, `open` and `grow`: a store as the two plain files that the customer's format has, a store made of such files, and a store
//! with more places.

use crate::failure::Failure;
use crate::file::{make_file, make_of, unmade};
use crate::form::refused_book;
use crate::options::{number, Options};
use crate::session::Session;
use crate::{disk, Streams};
use std::fs;
use std::path::Path;
use zilgwern::{most_saved_bytes, Store, PLACES, PLACE_BYTES};

/// Words behind a command that name things, each at most once.
#[derive(Default)]
struct Named<'a> {
    book: Option<&'a str>,
    area: Option<&'a str>,
    places: Option<usize>,
}

impl<'a> Named<'a> {
    fn of(command: &str, wanted: &[&str], rest: &[&'a str]) -> Result<Named<'a>, Failure> {
        let mut named = Named::default();
        let mut rest = rest.iter().copied();
        while let Some(word) = rest.next() {
            let (name, joined) = match word.split_once('=') {
                Some((name, value)) => (name, Some(value)),
                None => (word, None),
            };
            if !wanted.contains(&name) {
                return Err(Failure::usage(command, &format!("`{word}` is too much")));
            }
            let missing = || Failure::usage(command, &format!("{name} wants a word behind it"));
            let value = joined.or_else(|| rest.next()).ok_or_else(missing)?;
            match name {
                "--book" => named.book = Some(value),
                "--area" => named.area = Some(value),
                _ => named.places = Some(number(name, &mut || Some(value.into()))?),
            }
        }
        Ok(named)
    }

    /// The files of book and area, both of which must be named.
    fn files(&self, command: &str) -> Result<(&'a str, &'a str), Failure> {
        let both = self.book.zip(self.area);
        both.ok_or_else(|| Failure::usage(command, "name both files, --book FILE --area FILE"))
    }
}

fn store_name<'a>(command: &str, options: &'a Options) -> Result<&'a str, Failure> {
    let name = options.store.as_deref();
    name.ok_or_else(|| Failure::usage(command, "name the file of the store with --store FILE"))
}

/// `save`: writes area and book of the store into two files that do not exist yet. Neither is ever replaced, so the two can't be of
/// different moments; the book comes last, so where it is, the area is.
pub fn save(options: &Options, rest: &[&str], streams: &mut Streams) -> Result<(), Failure> {
    store_name("save", options)?;
    let named = Named::of("save", &["--book", "--area"], rest)?;
    let (book_name, area_name) = named.files("save")?;
    if book_name == area_name {
        return Err(Failure::usage("save", "book and area want two files"));
    }
    let mut session = Session::begin(options, streams.err)?;
    let book = session.store.save()?;
    let area = session.store.area();
    // Both are looked at, also for what was left beside them, before the first is written.
    let free = |name| disk::refuse_taken(Path::new(name)).map_err(|error| unmade(name, error));
    let [area_free, book_free] = [area_name, book_name].map(free);
    area_free.and(book_free)?;
    make_file(area_name, area)?;
    if let Err(failure) = make_file(book_name, &book) {
        // An area alone is of no use.
        let _ = fs::remove_file(area_name);
        return Err(failure);
    }
    let (places, length) = (area.len() / PLACE_BYTES, book.len());
    let words = format!("the area of {places} places in {area_name}");
    writeln!(streams.out, "saved the book of {length} bytes in {book_name}, {words}")?;
    Ok(())
}

/// `open`: makes a store, in a file that does not exist yet, of an area and a saved book.
pub fn open(options: &Options, rest: &[&str], streams: &mut Streams) -> Result<(), Failure> {
    let name = store_name("open", options)?;
    let named = Named::of("open", &["--book", "--area", "--places"], rest)?;
    let (book_name, area_name) = named.files("open")?;
    let most = *PLACES.end();
    let read = |name: &str, most: usize| {
        disk::read(Path::new(name), most + 1).map_err(|error| Failure::file(name, error))
    };
    let mut area = read(area_name, PLACE_BYTES * most)?;
    let book = read(book_name, most_saved_bytes(most))?;
    let wanted = named.places.or(options.places);
    if let Some(places) = wanted.filter(|_| area.len().is_multiple_of(PLACE_BYTES)) {
        // Those that are added are free, so their bytes do not matter. An area that is cut off within a place, and a number that
        // no store has, are refused below.
        area.resize(PLACE_BYTES * places.min(most + 1), 0);
    }
    let length = area.len();
    let opened = Store::open_saved_owned(area, &book).map_err(|error| {
        let failure = refused_book(error, length, &book);
        match error.number() {
            1 => failure.at(area_name),
            5 => failure.at(book_name).hinted(format!("Is {area_name} of the same saving?")),
            _ => failure.at(book_name),
        }
    });
    let mut store = opened?;
    make_of(name, &mut store)?;
    let places = store.area().len() / PLACE_BYTES;
    writeln!(streams.out, "a store of {places} places, as it was saved, in {name}")?;
    Ok(())
}

/// `grow`: gives the store more places.
pub fn grow(options: &Options, rest: &[&str], streams: &mut Streams) -> Result<(), Failure> {
    let name = store_name("grow", options)?;
    let named = Named::of("grow", &["--places"], rest)?;
    let Some(places) = named.places.or(options.places) else {
        return Err(Failure::usage("grow", "say how many it shall have, --places N"));
    };
    let mut session = Session::begin(options, streams.err)?;
    let before = session.store.area().len() / PLACE_BYTES;
    let grown = session.store.grown(places).map_err(|error| match error.number() {
        22 => Failure::from(error)
            .at(name)
            .hinted(format!("It has {before} places, and places are never taken away.")),
        _ => Failure::from(error).at(name),
    });
    session.store = grown?;
    session.keep()?;
    writeln!(streams.out, "{name}: {before} places before, {places} now")?;
    Ok(())
}
