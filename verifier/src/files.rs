//! The files of signatures on data. All are opened before anything that they hold is looked at: from then on a process
//! needs to open nothing, and may give up that it can.

use std::fs::{File, OpenOptions};
use std::io::{self, Read, Seek, Write};
use std::path::Path;

use crate::data::{Broken, Stop};
use crate::input;
use crate::message::copy_pieces;
use crate::opening::{self, Source};
use crate::spool;

/// Data that are read once, or, if some of their signatures are the library's and others aren't, twice.
pub struct Data<'p> {
    path: &'p Path,
    /// None is standard input.
    file: Option<Source>,
    /// Where they are copied if they can't be read twice.
    spare: Option<io::Result<File>>,
}

impl<'p> Data<'p> {
    pub fn open(path: &'p Path) -> Result<Data<'p>, Broken> {
        let mut file = open(path)?;
        let is_whole = file.as_mut().map_or(Ok(false), Source::is_whole).map_err(|error| broken(path, error))?;
        Ok(Data { path, file, spare: (!is_whole).then(spool::unnamed) })
    }

    pub fn once(self) -> Box<dyn Read + Send + Sync> {
        reader(self.file)
    }

    /// Hands them on piece by piece, and returns them once more from their beginning.
    pub fn twice(mut self, piece: &mut dyn FnMut(&[u8]) -> io::Result<()>) -> Result<File, Stop> {
        let path = self.path;
        let spare = self.spare.take();
        let read = match (self.file.take(), spare) {
            (Some(whole), None) => {
                let mut file = whole.into_file();
                copy_pieces(&mut file, piece).map(|()| file)
            }
            (file, spare) => {
                let mut copy = spare.unwrap_or_else(spool::unnamed).map_err(|error| broken(path, error))?;
                copy_pieces(&mut *reader(file), &mut |octets| piece(octets).and_then(|()| copy.write_all(octets)))
                    .map(|()| copy)
            }
        };
        read.and_then(|mut file| file.rewind().map(|()| file)).map_err(|error| broken(path, error).into())
    }

    pub fn path(&self) -> &'p Path {
        self.path
    }
}

/// The octets of a file or of standard input, up to a number.
pub fn octets(path: &Path, most: u64) -> Result<Vec<u8>, Broken> {
    let mut octets = Vec::new();
    reader(open(path)?).take(most).read_to_end(&mut octets).map_err(|error| broken(path, error))?;
    Ok(octets)
}

/// None is standard input.
fn open(path: &Path) -> Result<Option<Source>, Broken> {
    match input::is_standard_input(path) {
        true => Ok(None),
        false => opening::open(path).map(Some).map_err(|error| broken(path, error)),
    }
}

fn reader(file: Option<Source>) -> Box<dyn Read + Send + Sync> {
    match file {
        Some(file) => Box::new(file),
        None => Box::new(io::stdin()),
    }
}

/// A message that holds its signatures: at its beginning, as it can be read more than once.
pub struct Whole<'p> {
    pub path: &'p Path,
    pub file: File,
    /// For the data, if the library reads them too after this program.
    pub spare: io::Result<File>,
    pub content: Content<'p>,
}

impl<'p> Whole<'p> {
    pub fn open(path: &'p Path, content: Option<&'p Path>) -> Result<Whole<'p>, Broken> {
        let file = spool::open(path).map_err(|error| broken(path, error))?;
        Ok(Whole { path, file, spare: spool::unnamed(), content: Content::open(content)? })
    }
}

/// The file to which what is signed is written, if one is wanted.
pub struct Content<'p>(Option<(File, &'p Path)>);

impl<'p> Content<'p> {
    fn open(path: Option<&'p Path>) -> Result<Content<'p>, Broken> {
        let open = |path: &'p Path| {
            let opened = OpenOptions::new().write(true).create_new(true).open(path);
            opened.map(|file| (file, path)).map_err(|error| unwritten(path, error))
        };
        path.map(open).transpose().map(Content)
    }

    pub fn write(&mut self, octets: &[u8]) -> Result<(), Stop> {
        let written = self
            .0
            .as_mut()
            .map_or(Ok(()), |(file, path)| file.write_all(octets).map_err(|error| unwritten(path, error)));
        Ok(written?)
    }

    pub fn finish(&mut self) -> Result<(), Stop> {
        let flushed =
            self.0.as_mut().map_or(Ok(()), |(file, path)| file.flush().map_err(|error| unwritten(path, error)));
        Ok(flushed?)
    }
}

pub fn broken(path: &Path, error: io::Error) -> Broken {
    Broken::Input(format!("{}: {error}", path.display()))
}

pub fn unwritten(path: &Path, error: io::Error) -> Broken {
    Broken::Output(format!("{}: {error}", path.display()))
}
