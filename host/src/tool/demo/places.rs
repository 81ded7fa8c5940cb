//! Where the demo writes: picture, archive and page, none of which may take another's place.

use super::{Kept, KEPT};
use crate::tool::args::Args;
use crate::tool::destination::Destination;
use crate::tool::out::Out;
use joyce_host::machine::Machine;
use std::fs;
use std::path::Path;

pub struct Places {
    pub picture: Destination,
    /// Beside the picture; none where that goes to standard output.
    pub archive: Option<Destination>,
    pub page: Option<Destination>,
}

impl Places {
    pub fn of(machine: &dyn Machine, args: &Args) -> Result<Places, String> {
        let picture = Destination::of(args.text("-o").unwrap_or("demo.pbm"))?;
        let page = args.text("--html").map(Destination::of).transpose()?;
        let archive = if picture.is_standard() { None } else { Some(archive_beside(machine, &picture)?) };
        match &page {
            Some(page) if page.same_as(&picture) => Err(format!("--html: {} has the picture already", page.shown())),
            Some(page) if matches!(&archive, Some(archive) if archive.same_as(page)) => {
                Err(format!("--html: {} is where the archive goes; name the page otherwise", page.name))
            }
            _ => Ok(Places { picture, archive, page }),
        }
    }

    /// Where texts go.
    pub fn out(&self) -> Out {
        let pages = self.page.iter();
        Out::beside(&pages.chain([&self.picture]).collect::<Vec<_>>())
    }
}

/// The archive's name is the picture's, with another ending.
fn archive_beside(machine: &dyn Machine, picture: &Destination) -> Result<Destination, String> {
    let path = Path::new(&picture.name).with_extension("archive").display().to_string();
    if fs::symlink_metadata(&path).is_ok() && path != picture.name && !of_a_demo(machine, &path) {
        return Err(format!("{path}: there already, and not from a demo; give the picture another name by -o"));
    }
    let archive = Destination::of(&path)?;
    if archive.same_as(picture) {
        return Err(format!("-o: {} is where the archive goes; name the picture otherwise", picture.name));
    }
    Ok(archive)
}

/// Whether an archive is what a demo leaves, and may be written over by the next one.
fn of_a_demo(machine: &dyn Machine, path: &str) -> bool {
    let found = Kept::open(machine, path).and_then(|kept| Ok((kept.count()?, kept.find(KEPT.bench, KEPT.number)?)));
    found == Ok((1, Some(0)))
}
