//! What a command answers, and where that goes: standard output, or the file of `-o`, written whole or not at all.

use crate::shown;
use crate::stop::{out, say, Stop};
use std::ffi::OsStr;
use std::fs::{self, File, OpenOptions};
use std::io::{self, IsTerminal, Seek, Write};
use std::os::unix::ffi::OsStrExt;
use std::path::{Path, PathBuf};

/// An answer: its bytes, the exit status that goes with it, and what is said beside it.
pub struct Answer {
    body: Body,
    status: u8,
    said: String,
}

enum Body {
    Text(Vec<u8>),
    /// Bytes that no terminal shows.
    Sheet(Vec<u8>),
    Waiting(Waiting),
}

impl Answer {
    pub fn text(text: impl Into<Vec<u8>>) -> Answer {
        Answer { body: Body::Text(text.into()), status: 0, said: String::new() }
    }

    pub fn sheet(bytes: Vec<u8>) -> Answer {
        Answer { body: Body::Sheet(bytes), ..Answer::text("") }
    }

    /// What waited until it was whole.
    pub fn waited(waiting: Waiting) -> Answer {
        Answer { body: Body::Waiting(waiting), ..Answer::text("") }
    }

    /// With another exit status, and words on standard error.
    pub fn but(self, status: u8, said: String) -> Answer {
        Answer { status, said, ..self }
    }

    /// Gives the answer, and its exit status. A part of an answer, which has status 1, goes to no file.
    pub fn give(self, output: Option<&[u8]>) -> Result<u8, Stop> {
        let given = match output {
            None => self.body.to_stdout(),
            Some(_) if self.status == 1 => Ok(()),
            Some(file) => self.body.to_file(file).map_err(|e| Stop::File(shown::path(file), e.to_string())),
        };
        // what is refused is refused, whether or not the rest can be written
        if self.status != 1 {
            given?;
        }
        say(&self.said);
        Ok(self.status)
    }
}

impl Body {
    fn to_stdout(self) -> Result<(), Stop> {
        match self {
            Body::Sheet(_) if io::stdout().is_terminal() => {
                Err(Stop::Usage("the answer is a sheet, whose bytes no terminal shows: -o FILE writes it to a file".into()))
            }
            Body::Text(bytes) | Body::Sheet(bytes) => out(|stdout| stdout.write_all(&bytes)),
            Body::Waiting(waiting) => out(|stdout| waiting.copied(stdout)),
        }
    }

    /// Writes a file beside the one that is meant, and gives it that name once it is whole.
    fn to_file(self, name: &[u8]) -> io::Result<()> {
        let path = Path::new(OsStr::from_bytes(name));
        match fs::canonicalize(path) {
            // a device or a pipe has no other in its place
            Ok(there) if !there.is_file() && !there.is_dir() => self.written(&mut OpenOptions::new().write(true).open(there)?),
            Ok(there) if there.is_dir() => Err(io::Error::other("is a folder")),
            Ok(there) => {
                let permissions = fs::metadata(&there)?.permissions();
                self.put_in_place(&there, Some(permissions))
            }
            Err(_) => self.put_in_place(path, None),
        }
    }

    fn put_in_place(self, path: &Path, permissions: Option<fs::Permissions>) -> io::Result<()> {
        let (mut file, beside) = temporary(folder_of(path))?;
        let written = permissions
            .map_or(Ok(()), |permissions| file.set_permissions(permissions))
            .and_then(|()| self.written(&mut file))
            .and_then(|()| file.sync_all())
            .and_then(|()| fs::rename(&beside, path));
        written.inspect_err(|_| drop(fs::remove_file(&beside)))
    }

    fn written(self, file: &mut File) -> io::Result<()> {
        match self {
            Body::Text(bytes) | Body::Sheet(bytes) => file.write_all(&bytes),
            Body::Waiting(waiting) => waiting.copied(file),
        }
    }
}

/// An answer that waits until it is whole: in memory, and where it is long in a file without a name, so that nothing of it is left.
pub struct Waiting {
    folder: PathBuf,
    held: Vec<u8>,
    file: Option<File>,
}

/// So many bytes of an answer that waits are held in memory.
const MOST_HELD: usize = 1 << 20;

impl Waiting {
    /// Long ones beside the file of `-o`, or where temporary files are.
    pub fn begin(output: Option<&[u8]>) -> Waiting {
        let folder = output.map_or_else(std::env::temp_dir, |file| folder_of(Path::new(OsStr::from_bytes(file))).into());
        Waiting { folder, held: Vec::new(), file: None }
    }

    /// That there is no room for it.
    pub fn wrong(&self, e: io::Error) -> Stop {
        Stop::File(format!("a temporary file in {}", shown::path(self.folder.as_os_str().as_bytes())), e.to_string())
    }

    /// Moves what is held to the file.
    fn spill(&mut self) -> io::Result<()> {
        if self.file.is_none() {
            let (file, path) = temporary(&self.folder)?;
            fs::remove_file(path)?;
            self.file = Some(file);
        }
        self.file.iter_mut().try_for_each(|file| file.write_all(&self.held))?;
        self.held.clear();
        Ok(())
    }

    fn copied(self, to: &mut impl Write) -> io::Result<()> {
        if let Some(mut file) = self.file {
            file.rewind()?;
            io::copy(&mut file, to)?;
        }
        to.write_all(&self.held)
    }
}

impl Write for Waiting {
    fn write(&mut self, bytes: &[u8]) -> io::Result<usize> {
        if self.held.len() + bytes.len() > MOST_HELD {
            self.spill()?;
        }
        self.held.extend_from_slice(bytes);
        Ok(bytes.len())
    }

    fn flush(&mut self) -> io::Result<()> {
        Ok(())
    }
}

fn folder_of(path: &Path) -> &Path {
    path.parent().filter(|folder| !folder.as_os_str().is_empty()).unwrap_or(Path::new("."))
}

/// A new file in a folder, and its path.
fn temporary(folder: &Path) -> io::Result<(File, PathBuf)> {
    let mut turn = 0;
    loop {
        let path = folder.join(format!(".wallcheck-{}-{turn}", std::process::id()));
        match OpenOptions::new().read(true).write(true).create_new(true).open(&path) {
            Err(e) if e.kind() == io::ErrorKind::AlreadyExists && turn < 1000 => turn += 1,
            opened => return opened.map(|file| (file, path)),
        }
    }
}
