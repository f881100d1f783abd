//! Where reports and charts go. A report is evidence: it is never overwritten
//! unless that is asked for.

use std::fs::{self, File, OpenOptions};
use std::io::{self, ErrorKind, Seek, Write};
use std::path::{Path, PathBuf};

/// A file that is there for us to fill.
#[derive(Debug)]
pub struct Kept {
    /// Its path, as a user would type it.
    pub path: PathBuf,
    file: File,
    /// Whether it wasn't there before.
    fresh: bool,
}

impl Kept {
    /// A file at a path that was asked for.
    pub fn named(path: &Path, force: bool) -> Result<Self, String> {
        let shown = path.display();
        let folder = path
            .parent()
            .filter(|folder| !folder.as_os_str().is_empty());
        if let Some(folder) = folder
            && !folder.is_dir()
        {
            return Err(format!("{shown}: there is no folder {}", folder.display()));
        }
        let fresh = !path.exists();
        let mut options = OpenOptions::new();
        options.write(true).truncate(false);
        match options.create(force).create_new(!force).open(path) {
            Ok(file) => Ok(Self {
                path: path.to_owned(),
                file,
                fresh,
            }),
            Err(error) if error.kind() == ErrorKind::AlreadyExists => {
                Err(format!("{shown} is there already; --force overwrites it"))
            }
            Err(error) => Err(format!("{shown}: {error}")),
        }
    }

    /// A file in a folder that wasn't there before. Its name is `stem` with an
    /// ending, and with a count if there is a file of that stem already.
    pub fn fresh(folder: &Path, stem: &str, ending: &str) -> Result<Self, String> {
        let mut count = 1_u32;
        loop {
            let more = if count == 1 {
                String::new()
            } else {
                format!("-{count}")
            };
            let path = folder.join(format!("{stem}{more}.{ending}"));
            match Self::named(&path, false) {
                Err(_) if path.exists() => count += 1,
                opened => return opened,
            }
        }
    }

    /// The file beside this one, of another ending.
    pub fn beside(&self, ending: &str) -> Result<Self, String> {
        Self::named(&self.path.with_extension(ending), false)
    }

    /// Makes this text all that stands in the file.
    pub fn fill(&mut self, text: &str) -> Result<(), String> {
        self.replace(text)
            .map_err(|error| format!("{}: {error}", self.path.display()))
    }

    fn replace(&mut self, text: &str) -> io::Result<()> {
        // A device as /dev/null has no length.
        if !self.file.metadata()?.is_file() {
            return self.file.write_all(text.as_bytes());
        }
        self.file.set_len(0)?;
        self.file.rewind()?;
        self.file.write_all(text.as_bytes())?;
        self.file.sync_all()
    }

    /// Leaves things as they were before the file was filled.
    pub fn give_up(self) {
        if self.fresh {
            let _ = fs::remove_file(&self.path);
        }
    }
}
