//! Whether others could put something else in the place of a part of a path.

use std::ffi::OsString;
use std::fs::{self, Metadata};
use std::io;
use std::os::unix::fs::MetadataExt;
use std::path::{Component, Path, PathBuf};

const MOST_LINKS: usize = 40;

/// An Err if they could; the text says where. Parts may be links. In a shared directory, such as /tmp, only the owner
/// of a part can replace it. Whoever owns `/` can do anything.
pub fn check(path: &Path) -> io::Result<()> {
    let top = fs::metadata("/")?.uid();
    let mut left = parts(&std::env::current_dir().unwrap_or_default().join(path));
    let (mut folder, mut links) = (PathBuf::from("/"), 0);
    while let Some(part) = left.pop() {
        if part == ".." {
            folder.pop();
            continue;
        }
        let place = folder.join(&part);
        check_part(&folder, &place, top)?;
        match fs::read_link(&place) {
            Err(_) => folder = place,
            Ok(target) => {
                links += 1;
                if links > MOST_LINKS {
                    return Err(refused(format!("{}: too many links", path.display())));
                }
                if target.is_absolute() {
                    folder = PathBuf::from("/");
                }
                left.append(&mut parts(&target));
            }
        }
    }
    Ok(())
}

/// The parts of a path, the last one first.
fn parts(path: &Path) -> Vec<OsString> {
    let named = path.components().filter(|one| matches!(one, Component::Normal(_) | Component::ParentDir));
    named.map(|one| one.as_os_str().to_owned()).rev().collect()
}

fn check_part(folder: &Path, place: &Path, top: u32) -> io::Result<()> {
    // SAFETY: neither call reads memory of ours.
    let (user, group) = unsafe { (libc::geteuid(), libc::getegid()) };
    if is_open(&fs::metadata(folder)?, group) {
        return Err(refused(format!("others can write to the directory {}", folder.display())));
    }
    let owner = fs::symlink_metadata(place)?.uid();
    if ![user, 0, top].contains(&owner) {
        return Err(refused(format!("{} is another user's", place.display())));
    }
    Ok(())
}

fn is_open(folder: &Metadata, own: u32) -> bool {
    let by_group = folder.mode() & 0o020 != 0 && folder.uid() != 0 && folder.gid() != own;
    (by_group || folder.mode() & 0o002 != 0) && folder.mode() & libc::S_ISVTX == 0
}

fn refused(why: String) -> io::Error {
    io::Error::new(io::ErrorKind::PermissionDenied, why)
}
