//! `show`: what stands where in a store, drawn in text or as an SVG.

mod paint;
mod scale;
mod svg;
mod text;

use crate::failure::Failure;
use crate::session::Session;
use crate::Streams;
use text::Signs;

/// The picture in text, for the prompt.
pub fn in_text(session: &Session) -> String {
    text::draw(&session.store.view(), session.whole, &Signs::BLOCKS)
}

pub fn show(session: &Session, rest: &[&str], streams: &mut Streams) -> Result<(), Failure> {
    let (mut signs, mut file) = (&Signs::BLOCKS, None);
    let mut rest = rest.iter().copied();
    while let Some(word) = rest.next() {
        match word {
            "--ascii" => signs = &Signs::ASCII,
            "--svg" => {
                let missing = || Failure::usage("show", "--svg wants a file behind it");
                file = Some(rest.next().ok_or_else(missing)?);
            }
            _ => return Err(Failure::usage("show", &format!("`{word}` is too much"))),
        }
    }
    let view = session.store.view();
    match file {
        Some("-") => Ok(streams.out.write_all(svg::draw(&view, session.whole).as_bytes())?),
        Some(name) => {
            session.spare(name)?;
            let picture = svg::draw(&view, session.whole);
            std::fs::write(name, picture).map_err(|error| Failure::file(name, error))
        }
        None => Ok(streams.out.write_all(text::draw(&view, session.whole, signs).as_bytes())?),
    }
}
