//! How to open a blob or a log.

use std::ffi::{OsStr, OsString};
use std::path::{Path, PathBuf};

use crate::session::Session;
use crate::{Blob, Log, Result};

/// The version of the protocol to speak.
#[derive(Clone, Copy, Debug, Default, PartialEq, Eq)]
pub enum Protocol {
    /// The highest that both know.
    #[default]
    Highest,
    /// Version 1 alone.
    One,
    /// Version 2 alone.
    Two,
}

/// How to open a blob or a log. What isn't set is as the program has it by default.
///
/// ```
/// # fn main() -> Result<(), Box<dyn std::error::Error>> {
/// # let Some(_) = std::env::var_os("PAGEDD") else { return Ok(()) };
/// # let room = std::env::temp_dir().join(format!("paged-doc-options-{}", std::process::id()));
/// # std::fs::create_dir_all(&room)?;
/// # std::env::set_current_dir(&room)?;
/// let mut log = paged::Options::new().segment_size(1 << 20).cut_limit(0).open_log("events")?;
/// log.append(b"hello")?;
/// log.sync()?;
/// log.close()?;
/// let log = paged::Options::new().read_only(true).open_log("events")?;
/// assert_eq!(log.hello().size, 1);
/// # drop(log);
/// # std::fs::remove_dir_all(&room)?;
/// # Ok(())
/// # }
/// ```
#[derive(Clone, Debug, Default)]
pub struct Options {
    program: Option<PathBuf>,
    pub(crate) protocol: Protocol,
    pub(crate) share_standard_error: bool,
    pub(crate) own_process_group: bool,
    words: Vec<OsString>,
    log_words: Vec<OsString>,
}

impl Options {
    /// Nothing is set.
    pub fn new() -> Options {
        Options::default()
    }

    /// The program: a path, or a name to be looked for in `PATH`. Else it is what the variable
    /// `PAGEDD` names, or `pagedd`.
    pub fn program(mut self, program: impl Into<PathBuf>) -> Options {
        self.program = Some(program.into());
        self
    }

    /// The version of the protocol.
    pub fn protocol(mut self, protocol: Protocol) -> Options {
        self.protocol = protocol;
        self
    }

    /// Serves for reading alone, and changes no file.
    pub fn read_only(self, yes: bool) -> Options {
        self.flag("--read-only", yes)
    }

    /// Recovers what would be refused as not whole; what is cut is kept beside it.
    pub fn cut(self, yes: bool) -> Options {
        self.flag("--cut", yes)
    }

    /// How many bytes may be cut without [`cut`](Options::cut) though pages among them fit.
    pub fn cut_limit(self, bytes: u64) -> Options {
        self.word("--cut-limit", bytes.to_string())
    }

    /// The content bytes of a page, 1 to 65,535. The file doesn't name it: it is to be that with
    /// which it was made.
    pub fn page_size(self, bytes: u16) -> Options {
        self.word("--page-size", bytes.to_string())
    }

    /// The name of the checksum: `crc32c` or `add`.
    pub fn checksum(self, name: impl AsRef<OsStr>) -> Options {
        self.word("--checksum", name)
    }

    /// The bytes that are held back, and those of a read.
    pub fn buffer(self, bytes: u64) -> Options {
        self.word("--buffer", bytes.to_string())
    }

    /// The pages that may be held in memory.
    pub fn cache(self, pages: u64) -> Options {
        self.word("--cache", pages.to_string())
    }

    /// For a log: the name of the digest of closed segments, `sha512-256` or `poly61`.
    pub fn digest(mut self, name: impl AsRef<OsStr>) -> Options {
        set(&mut self.log_words, "--digest", name.as_ref());
        self
    }

    /// For a log: from how many bytes on a segment is closed.
    pub fn segment_size(mut self, bytes: u64) -> Options {
        set(
            &mut self.log_words,
            "--segment-size",
            bytes.to_string().as_ref(),
        );
        self
    }

    /// The program writes to the standard error of this process. Then
    /// [`Error::said`](crate::Error::said) stays empty, and
    /// [`ErrorKind::NotOpened`](crate::ErrorKind::NotOpened) stands for
    /// [`ErrorKind::Locked`](crate::ErrorKind::Locked) too, which is known by the words there.
    pub fn share_standard_error(mut self, yes: bool) -> Options {
        self.share_standard_error = yes;
        self
    }

    /// The program gets a process group of its own, so that a Ctrl-C in the terminal doesn't end
    /// it.
    pub fn own_process_group(mut self, yes: bool) -> Options {
        self.own_process_group = yes;
        self
    }

    /// Opens a blob: starts `pagedd serve PATH`, which makes the file if it is missing, and
    /// recovers it.
    pub fn open_blob(&self, path: impl AsRef<Path>) -> Result<Blob> {
        let session = Session::open(self, false, &self.command("serve", false, path.as_ref()))?;
        Ok(Blob::new(session))
    }

    /// Opens a log: starts `pagedd serve-log FOLDER`, which makes the folder if it is missing, and
    /// recovers the log.
    pub fn open_log(&self, folder: impl AsRef<Path>) -> Result<Log> {
        let session = Session::open(
            self,
            true,
            &self.command("serve-log", true, folder.as_ref()),
        )?;
        Ok(Log::new(session))
    }

    fn flag(mut self, name: &str, yes: bool) -> Options {
        remove(&mut self.words, name, 1);
        if yes {
            self.words.push(name.into());
        }
        self
    }

    fn word(mut self, name: &str, value: impl AsRef<OsStr>) -> Options {
        set(&mut self.words, name, value.as_ref());
        self
    }

    /// The words of the command line, the program first.
    fn command(&self, command: &str, is_log: bool, path: &Path) -> Vec<OsString> {
        let named = std::env::var_os("PAGEDD").filter(|name| !name.is_empty());
        let program = self.program.clone().map(OsString::from).or(named);
        let mut words = vec![program.unwrap_or_else(|| "pagedd".into()), command.into()];
        words.extend(self.words.iter().cloned());
        if is_log {
            words.extend(self.log_words.iter().cloned());
        }
        // An option begins with this byte, and a path need not.
        if path.as_os_str().as_encoded_bytes().first() == Some(&b'-') {
            words.push(Path::new(".").join(path).into());
        } else {
            words.push(path.into());
        }
        words
    }
}

/// Takes an option of so many words away.
fn remove(words: &mut Vec<OsString>, name: &str, count: usize) {
    if let Some(at) = words.iter().position(|word| word == name) {
        words.drain(at..(at + count).min(words.len()));
    }
}

/// Sets an option that a word follows; the last one set is taken.
fn set(words: &mut Vec<OsString>, name: &str, value: &OsStr) {
    remove(words, name, 2);
    words.push(name.into());
    words.push(value.into());
}
