//! `joyce archive check`: whether an archive is sound, as the library says, and where it is first not, as is found here.

use super::Kept;
use crate::tool::args::Args;
use crate::tool::{input, out};
use joyce::archive::{entry_at, length, picture_at, pictures_at, ENTRY, FORM, HEADER, MOST_BENCH, MOST_FRAMES};
use joyce::{Refusal, LINE_BYTES, PICTURE};
use joyce_host::machine::Machine;
use std::collections::HashMap;
use std::fmt;

/// The first thing that is not as it should be.
struct Unsound {
    at: usize,
    field: String,
    stands: String,
    should: String,
}

impl fmt::Display for Unsound {
    fn fmt(&self, f: &mut fmt::Formatter<'_>) -> fmt::Result {
        write!(f, "byte {}, {}: found {}, should be {}", self.at, self.field, self.stands, self.should)
    }
}

/// True if the archive is sound.
pub fn run(machine: &dyn Machine, args: &Args) -> Result<bool, String> {
    args.expect_words(1, "one FILE")?;
    let kept = Kept::open_any(machine, &args.words[0])?;
    let path = input::shown(&args.words[0]);
    let counted = kept.counted();
    let looked_over = Look { bytes: &kept.bytes, file_length: kept.file_length }.over();
    match (counted.accepted(), looked_over) {
        (Ok(counted), Ok(())) => {
            let frames = if counted.frames == 1 { "frame" } else { "frames" };
            out::line(&format!("{path}: sound, {} {frames}, {} bytes", counted.frames, kept.bytes.len()))?;
            Ok(true)
        }
        (Err(Refusal::BAD_ARCHIVE), Err(unsound)) => {
            out::line(&format!("{path}: not sound: {unsound}"))?;
            Ok(false)
        }
        (Err(Refusal(number)), Ok(())) => {
            Err(format!("{path}: the library refuses it with {number}, but nothing wrong is found"))
        }
        (_, Err(unsound)) => Err(format!("{path}: the library answers with {}, but {unsound}", counted.refusal)),
    }
}

struct Look<'a> {
    bytes: &'a [u8],
    file_length: u64,
}

impl Look<'_> {
    /// Everything in the order of the bytes.
    fn over(&self) -> Result<(), Unsound> {
        let n = self.header()?;
        let mut seen = HashMap::new();
        let shown = (0..n).map(|k| self.entry(n, k, &mut seen)).collect::<Result<Vec<_>, _>>()?;
        shown.iter().enumerate().try_for_each(|(k, &shown)| self.picture(n, k, shown))?;
        let more = self.file_length.saturating_sub(length(n) as u64);
        if more == 0 {
            return Ok(());
        }
        self.unsound(length(n), "behind the archive", bytes_text(more) + " more", "the end of the file")
    }

    fn unsound<T>(&self, at: usize, field: &str, stands: String, should: &str) -> Result<T, Unsound> {
        Err(Unsound { at, field: field.to_string(), stands, should: should.to_string() })
    }

    /// The number at an index, which must be wholly there and as it should be.
    fn number(&self, at: usize, field: &str, should: &str, right: impl Fn(u32) -> bool) -> Result<u32, Unsound> {
        let four = match self.bytes.get(at..at + 4) {
            Some(four) => four,
            None => return self.unsound(at, field, self.end(), should),
        };
        let number = u32::from_le_bytes(four.try_into().expect("four bytes"));
        if right(number) {
            Ok(number)
        } else {
            self.unsound(at, field, number.to_string(), should)
        }
    }

    fn end(&self) -> String {
        format!("the end of the file ({})", bytes_text(self.file_length))
    }

    fn exactly(&self, at: usize, field: &str, should: usize) -> Result<(), Unsound> {
        self.number(at, field, &should.to_string(), |number| number as usize == should).map(|_| ())
    }

    fn header(&self) -> Result<usize, Unsound> {
        self.exactly(0, "form", FORM as usize)?;
        let range = format!("0 to {MOST_FRAMES}");
        let n = self.number(4, "count", &range, |number| number as usize <= MOST_FRAMES)? as usize;
        self.exactly(8, "offset of entries", HEADER)?;
        self.exactly(12, "offset of pictures", pictures_at(n))?;
        self.exactly(16, "whole length", length(n))?;
        Ok(n)
    }

    /// An entry; gives its shown lines.
    fn entry(&self, n: usize, k: usize, seen: &mut HashMap<(u32, u32), usize>) -> Result<usize, Unsound> {
        let at = entry_at(k);
        let named = |field: &str| format!("{field} of entry {k}");
        let range = format!("1 to {MOST_BENCH}");
        let bench = self.number(at, &named("bench"), &range, |bench| (1..=MOST_BENCH).contains(&bench))?;
        let number = self.number(at + 4, &named("number"), "a number of four bytes", |_| true)?;
        if let Some(first) = seen.insert((bench, number), k) {
            let stands = format!("{bench} and {number} as in entry {first}");
            return self.unsound(at, &named("bench and number"), stands, "a pair that stands once");
        }
        let shown = self.number(at + 8, &named("shown lines"), "200 or 256", |shown| matches!(shown, 200 | 256))?;
        self.exactly(at + ENTRY - 4, &named("offset of the picture"), picture_at(n, k))?;
        Ok(shown as usize)
    }

    fn picture(&self, n: usize, k: usize, shown: usize) -> Result<(), Unsound> {
        let (from, end) = (picture_at(n, k) + LINE_BYTES * shown, picture_at(n, k) + PICTURE);
        let there = self.bytes.len().min(end);
        let unshown = self.bytes.get(from..there).unwrap_or_default();
        if let Some(index) = unshown.iter().position(|&byte| byte != 0) {
            let field = format!("unshown line {} of entry {k}", shown + index / LINE_BYTES);
            return self.unsound(from + index, &field, format!("{:02X}h", unshown[index]), "00h");
        }
        if there < end {
            let should = bytes_text((end - there) as u64) + " more of it";
            return self.unsound(there, &format!("picture of entry {k}"), self.end(), &should);
        }
        Ok(())
    }
}

fn bytes_text(count: u64) -> String {
    match count {
        1 => "1 byte".to_string(),
        _ => format!("{count} bytes"),
    }
}
