//! A file that is written beside its name, as NAME.part, and gets the name when it is whole; nothing is ever written over.
use std::ffi::{CString, OsString};
use std::fs::{self, File, OpenOptions};
use std::io;
use std::os::unix::ffi::OsStrExt;
use std::path::{Path, PathBuf};

use crate::failure::{Failure, Result, reason};
use crate::words::name_of;

pub struct NewFile {
    name: PathBuf,
    part: PathBuf,
    file: File,
    /// What was written stays: under its name, or as NAME.part for a look.
    kept: bool,
}

impl NewFile {
    pub fn create(name: &Path) -> Result<NewFile> {
        if fs::symlink_metadata(name).is_ok() {
            return Err(Failure::about(name, "it is there already, and nothing is written over: choose another name, or remove it first"));
        }
        let part = part_of(name);
        match OpenOptions::new().read(true).write(true).create_new(true).open(&part) {
            Ok(file) => Ok(NewFile { name: name.into(), part, file, kept: false }),
            Err(e) if e.kind() == io::ErrorKind::AlreadyExists => Err(Failure::about(
                &part,
                "it is there already, from a run that was cut off or still goes on: remove it if it is not needed",
            )),
            Err(e) => Err(Failure::of_writing(&part, &e)),
        }
    }

    pub fn file(&mut self) -> &mut File {
        &mut self.file
    }

    pub fn part(&self) -> &Path {
        &self.part
    }

    pub fn sync(&self) -> Result<()> {
        self.file.sync_all().map_err(|e| Failure::of_writing(&self.part, &e))
    }

    /// Gives the file its name, if nobody else has taken it meanwhile; if it can't, the file stays as NAME.part, since it is whole.
    pub fn keep(mut self) -> Result<()> {
        self.sync()?;
        self.kept = true;
        rename_new(&self.part, &self.name).map_err(|e| {
            let why = match e.kind() {
                io::ErrorKind::AlreadyExists => "it came to be meanwhile, and nothing is written over".into(),
                _ => format!("this name can't be given ({})", reason(&e)),
            };
            Failure::about(&self.name, &format!("{why}: what was made is left as {}: rename that", name_of(&self.part)))
        })
    }

    /// Leaves it as NAME.part.
    pub fn leave(mut self) -> PathBuf {
        self.kept = true;
        self.part.clone()
    }
}

impl Drop for NewFile {
    fn drop(&mut self) {
        if !self.kept {
            // Where it can't be removed nothing else can be done for it either.
            let _ = fs::remove_file(&self.part);
        }
    }
}

fn part_of(name: &Path) -> PathBuf {
    let mut part = OsString::from(name);
    part.push(".part");
    part.into()
}

/// The kernel's own rename that replaces nothing; where a file system does not have it, a second name and then, if that can be, no first.
fn rename_new(from: &Path, to: &Path) -> io::Result<()> {
    let (old, new) = (CString::new(from.as_os_str().as_bytes())?, CString::new(to.as_os_str().as_bytes())?);
    // SAFETY: both are paths that end in NUL and live through the call.
    let done = unsafe { libc::renameat2(libc::AT_FDCWD, old.as_ptr(), libc::AT_FDCWD, new.as_ptr(), libc::RENAME_NOREPLACE) };
    if done == 0 {
        return Ok(());
    }
    let error = io::Error::last_os_error();
    match error.raw_os_error() {
        Some(libc::EINVAL | libc::ENOSYS) => fs::hard_link(from, to).map(|()| drop(fs::remove_file(from))),
        _ => Err(error),
    }
}
