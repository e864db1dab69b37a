//! The files that a command reads: a payment file or standard input, with progress on a terminal.

use crate::common::{at_start, failed, wrong, Failure};
use desk::MOST_BYTES;
use indicatif::{ProgressBar, ProgressStyle};
use std::ffi::{OsStr, OsString};
use std::fs::{File, Metadata};
use std::io::{self, ErrorKind, Read};
use std::os::unix::{fs::MetadataExt, io::AsFd};
use std::path::Path;

/// Which file it is, whatever its name.
#[derive(Clone, Copy, PartialEq, Eq)]
pub struct Identity {
    device: u64,
    inode: u64,
}

/// A file that is open for reading.
pub struct Input {
    name: OsString,
    file: File,
    metadata: Metadata,
}

/// How much is read at a time, and from how many bytes on progress is shown.
const CUT: usize = 64 * 1024;
const LARGE: u64 = 1024 * 1024;

impl Identity {
    pub fn of(metadata: &Metadata) -> Identity {
        Identity { device: metadata.dev(), inode: metadata.ino() }
    }
}

impl Input {
    /// Opens a file; the path - is standard input.
    pub fn open(path: &Path) -> Result<Input, Failure> {
        let is_standard = path.as_os_str() == "-";
        let name = if is_standard { OsStr::new("standard input") } else { path.as_os_str() };
        if is_standard && at_start::input_was_closed() {
            return Err(wrong(name, "is closed"));
        }
        // Rust's own standard input takes one that is not open for reading for one that is empty
        let file =
            if is_standard { io::stdin().as_fd().try_clone_to_owned().map(File::from) } else { File::open(path) };
        let opened = file.and_then(|file| file.metadata().map(|metadata| (file, metadata)));
        let (file, metadata) = opened.map_err(|error| failed(name, &error))?;
        Ok(Input { name: name.into(), file, metadata })
    }

    /// What it is called in messages.
    pub fn name(&self) -> &OsStr {
        &self.name
    }

    pub fn identity(&self) -> Identity {
        Identity::of(&self.metadata)
    }

    /// The bytes of a payment file; of one that is too long, as many as show it.
    pub fn read(self) -> Result<Vec<u8>, Failure> {
        self.read_up_to(MOST_BYTES + 1)
    }

    /// At most so many bytes.
    pub fn read_up_to(mut self, most: u64) -> Result<Vec<u8>, Failure> {
        let length = if self.metadata.is_file() { self.metadata.len().min(most) } else { 0 };
        let mut bytes = Vec::new();
        let mut progress = None;
        let mut cut = vec![0; CUT];
        while (bytes.len() as u64) < most {
            let room = CUT.min((most - bytes.len() as u64) as usize);
            match self.file.read(&mut cut[..room]) {
                Ok(0) => break,
                Ok(count) => bytes.extend(&cut[..count]),
                Err(error) if error.kind() == ErrorKind::Interrupted => {}
                Err(error) => return Err(failed(&self.name, &error)),
            }
            if bytes.len() as u64 >= LARGE {
                progress.get_or_insert_with(|| bar(length, "{bytes} read")).set_position(bytes.len() as u64);
            }
        }
        if let Some(progress) = progress {
            progress.finish_and_clear();
        }
        Ok(bytes)
    }
}

/// Progress on standard error, where that is a terminal: up to a length, or 0 where that is not known.
pub fn bar(length: u64, told: &str) -> ProgressBar {
    let (bar, template) = match length {
        0 => (ProgressBar::new_spinner(), format!("{{spinner}} {told}")),
        _ => (ProgressBar::new(length), format!("{{bar:40}} {told}")),
    };
    bar.with_style(ProgressStyle::with_template(&template).expect("the template is right"))
}
