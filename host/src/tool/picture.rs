//! Pictures in files, read and written in any form: PNG, PBM or the bytes by themselves.

use super::destination::Destination;
use super::input::{self, Length};
use super::{files, pbm, png};
use joyce::{LINE_BYTES, PICTURE};

/// Bytes of the longest file that is taken for a picture. A PBM may have comments; a PNG has 46,080 bytes of pixels before
/// they are compressed.
const MOST: usize = 65_536;

/// The picture in a file; of one with 200 lines the others are dark.
pub fn read(name: &str) -> Result<Vec<u8>, String> {
    read_by(name, |bytes| {
        if !png::is_png(bytes) {
            return pbm::decode(bytes);
        }
        let mut picture = png::decode(bytes)?;
        picture.resize(PICTURE, 0);
        Ok(picture)
    })
}

/// The 200 or 256 lines in a file.
pub fn read_lines(name: &str) -> Result<Vec<u8>, String> {
    read_by(name, |bytes| if png::is_png(bytes) { png::decode(bytes) } else { pbm::decode_lines(bytes) })
}

fn read_by(name: &str, decode: impl Fn(&[u8]) -> Result<Vec<u8>, String>) -> Result<Vec<u8>, String> {
    let (bytes, ()) = input::read(name, MOST, |length| match length {
        Length::Exactly(bytes) if bytes <= MOST as u64 => Ok(()),
        _ => Err(format!("{length}: a picture has at most {MOST} in any form")),
    })?;
    decode(&bytes).map_err(|error| format!("{}: {error}", input::shown(name)))
}

/// Whether a picture of this name is written as PNG.
pub fn is_png_name(name: &str) -> bool {
    name.to_ascii_lowercase().ends_with(".png")
}

/// Lines as a file of this name has them.
pub fn encode(name: &str, lines: &[u8]) -> Vec<u8> {
    if is_png_name(name) {
        png::encode(lines)
    } else {
        pbm::encode(lines)
    }
}

/// Writes lines, and says of what size they are and what else there is to say.
pub fn write(destination: &Destination, lines: &[u8], about: &str) -> Result<(), String> {
    let height = lines.len() / LINE_BYTES * if is_png_name(&destination.name) { 2 } else { 1 };
    let line = format!("{}: 720 x {height}, {about}", destination.shown());
    files::write(destination, &encode(&destination.name, lines), &line)
}
