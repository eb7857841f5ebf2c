//! Files and standard input and output: read up to a bound, written whole or with a message.

use std::fs::File;
use std::io::{self, Read, Write};
use std::mem::ManuallyDrop;
use std::os::fd::FromRawFd;
use std::sync::atomic::{AtomicBool, Ordering};

const INPUT: i32 = 0;
const OUTPUT: i32 = 1;

static INPUT_CLOSED: AtomicBool = AtomicBool::new(false);
static OUTPUT_CLOSED: AtomicBool = AtomicBool::new(false);

extern "C" {
    fn fcntl(descriptor: i32, command: i32, ...) -> i32;
}

/// Rust's start opens /dev/null where a standard descriptor is closed, and what is
/// written is then lost without a word. So the two are looked at before that.
extern "C" fn note_closed() {
    const GET_FLAGS: i32 = 1;
    // The call reads a descriptor's flags and changes nothing.
    let closed = |descriptor| unsafe { fcntl(descriptor, GET_FLAGS) } == -1;
    INPUT_CLOSED.store(closed(INPUT), Ordering::Relaxed);
    OUTPUT_CLOSED.store(closed(OUTPUT), Ordering::Relaxed);
}

#[used]
#[cfg_attr(target_os = "linux", link_section = ".init_array")]
static BEFORE_START: extern "C" fn() = note_closed;

/// Why a file could not be read or written.
#[derive(Debug)]
pub enum FileError {
    /// The reader of what is written has gone: nobody is left to be told.
    Gone,
    Failed(String),
}

/// The system's words without its number.
fn told(error: io::Error) -> FileError {
    if error.kind() == io::ErrorKind::BrokenPipe {
        return FileError::Gone;
    }
    let words = error.to_string();
    let end = words.find(" (os error").unwrap_or(words.len());
    FileError::Failed(words[..end].to_string())
}

/// The descriptor as a file without Rust's own buffer, which would take a closed
/// descriptor for one that works.
fn standard(descriptor: i32, closed: &AtomicBool) -> Result<File, FileError> {
    if closed.load(Ordering::Relaxed) {
        return Err(FileError::Failed("it is closed".to_string()));
    }
    // The descriptor was open at the start and stays open: only the copy is closed.
    let file = ManuallyDrop::new(unsafe { File::from_raw_fd(descriptor) });
    file.try_clone().map_err(told)
}

/// A file that is being read, or standard input.
pub struct Input {
    file: File,
}

impl Input {
    pub fn open(path: Option<&str>) -> Result<Input, FileError> {
        let file = match path {
            None | Some("-") => standard(INPUT, &INPUT_CLOSED)?,
            Some(path) => File::open(path).map_err(told)?,
        };
        Ok(Input { file })
    }

    /// Reads on until there are `most` bytes, or all there are.
    pub fn read_on(&mut self, bytes: &mut Vec<u8>, most: usize) -> Result<(), FileError> {
        let left = most.saturating_sub(bytes.len()) as u64;
        let mut part = (&self.file).take(left);
        part.read_to_end(bytes).map(|_| ()).map_err(told)
    }
}

/// Writes all of it, or says why not.
pub fn write(path: Option<&str>, bytes: &[u8]) -> Result<(), FileError> {
    let mut file = match path {
        None | Some("-") => standard(OUTPUT, &OUTPUT_CLOSED)?,
        Some(path) => File::create(path).map_err(told)?,
    };
    file.write_all(bytes).map_err(told)
}
