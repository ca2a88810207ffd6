//! encode and decode: a sheet as bytes or as text. What the check refuses is written all the same.

use tools::decode;

use crate::arguments::Given;
use crate::compared::check_of;
use crate::engine::engine;
use crate::failure::Failure;
use crate::sheet::Sheet;

pub fn encode(given: &Given) -> Result<(), Failure> {
    let limit = given.limit()?;
    let sheet = Sheet::read(given)?;
    sheet.must_be_whole()?;
    sheet.write(given, &sheet.bytes)?;
    sheet.check(&limit)
}

pub fn decode(given: &Given) -> Result<(), Failure> {
    let limit = given.limit()?;
    let sheet = Sheet::read(given)?;
    sheet.must_be_whole()?;
    // The text has the answer of the second simulator's check.
    check_of(engine(), &sheet.bytes).map_err(|stop| sheet.stopped(stop, &limit))?;
    let mut text = decode::decode(&sheet.bytes, &sheet.names());
    if !engine().is_proved() {
        text.push_str(&format!("# {}\n", engine().note()));
    }
    sheet.write(given, text.as_bytes())?;
    sheet.check(&limit)
}
