//! Outputs, opened in one place: none may be one of the inputs, a file comes
//! to be only as a whole, and an error names the output that it is about.

use std::fmt::Arguments;
use std::fs::{self, File, OpenOptions};
use std::io::{self, BufWriter, Write};
use std::os::fd::AsFd;
use std::os::unix::fs::MetadataExt;
use std::path::{Path, PathBuf};

use crate::fault::Fault;
use crate::stream::{shown_name, STANDARD};

/// So many names are tried for a file that is half written.
const HALVES: u32 = 100;

/// An output that is being written.
pub struct Output {
    name: String,
    writer: BufWriter<Box<dyn Write>>,
    /// The half written file and the one that it will be; none for standard
    /// output, a device or a pipe, which take what comes.
    half: Option<(PathBuf, PathBuf)>,
}

impl Output {
    /// Standard output, which may not be one of the inputs.
    pub fn standard(inputs: &[&str]) -> Result<Output, Fault> {
        let output = io::stdout();
        let handle = output.as_fd().try_clone_to_owned().map(File::from);
        if let Ok(data) = handle.and_then(|file| file.metadata()) {
            refuse_inputs("standard output", &data, inputs)?;
        }
        Ok(Output {
            name: "standard output".to_string(),
            writer: BufWriter::new(Box::new(output.lock())),
            half: None,
        })
    }

    /// A file, or standard output for "-". It is opened before the inputs are
    /// read, so that one that can't be written is known at once; what was there
    /// stays until the output is [`done`](Output::done).
    pub fn open(name: &str, inputs: &[&str]) -> Result<Output, Fault> {
        if name == STANDARD {
            return Output::standard(inputs);
        }
        let cannot = |error: io::Error| Fault::writing(name, &error);
        let target = match OpenOptions::new().write(true).open(name) {
            Ok(there) => {
                let data = there.metadata().map_err(cannot)?;
                if !data.is_file() {
                    return Ok(Output::whole(name, there, None));
                }
                refuse_inputs(name, &data, inputs)?;
                fs::canonicalize(name).map_err(cannot)?
            }
            Err(error) if error.kind() == io::ErrorKind::NotFound => PathBuf::from(name),
            Err(_) if Path::new(name).is_dir() => {
                return Err(Fault::bad(format!("{name}: it is a folder")))
            }
            Err(error) => return Err(cannot(error)),
        };
        let (half, file) = half(&target).map_err(cannot)?;
        Ok(Output::whole(name, file, Some((half, target))))
    }

    fn whole(name: &str, file: File, half: Option<(PathBuf, PathBuf)>) -> Output {
        Output {
            name: name.to_string(),
            writer: BufWriter::new(Box::new(file)),
            half,
        }
    }

    /// Writes some bytes.
    pub fn put(&mut self, bytes: &[u8]) -> Result<(), Fault> {
        let written = self.writer.write_all(bytes);
        written.map_err(|error| Fault::writing(&self.name, &error))
    }

    /// What `write!` calls.
    pub fn write_fmt(&mut self, text: Arguments) -> Result<(), Fault> {
        let written = self.writer.write_fmt(text);
        written.map_err(|error| Fault::writing(&self.name, &error))
    }

    /// All is written: the file takes its name.
    pub fn done(mut self) -> Result<(), Fault> {
        let written = self.writer.flush();
        written.map_err(|error| Fault::writing(&self.name, &error))?;
        if let Some((half, target)) = self.half.take() {
            let renamed = fs::rename(&half, target);
            return renamed.map_err(|error| {
                let _ = fs::remove_file(&half); // it has no use any more
                Fault::writing(&self.name, &error)
            });
        }
        Ok(())
    }
}

impl Drop for Output {
    /// A file that was not written as a whole leaves nothing.
    fn drop(&mut self) {
        if let Some((half, _)) = self.half.take() {
            let _ = fs::remove_file(half);
        }
    }
}

/// A fresh file beside the one that it will be. Its name was free: what is
/// there under such a name may be an input.
fn half(target: &Path) -> io::Result<(PathBuf, File)> {
    let mut tried = io::Error::from(io::ErrorKind::AlreadyExists);
    for number in 1..=HALVES {
        let mut name = target.as_os_str().to_owned();
        name.push(match number {
            1 => ".half".to_string(),
            number => format!(".half{number}"),
        });
        let path = PathBuf::from(name);
        match OpenOptions::new().write(true).create_new(true).open(&path) {
            Ok(file) => return Ok((path, file)),
            Err(error) if error.kind() == io::ErrorKind::AlreadyExists => tried = error,
            Err(error) => return Err(error),
        }
    }
    Err(tried)
}

/// Refuses an output file that is one of the inputs, under whatever name.
fn refuse_inputs(output: &str, data: &fs::Metadata, inputs: &[&str]) -> Result<(), Fault> {
    if !data.is_file() {
        return Ok(());
    }
    let same = |input: &&&str| place(input) == Some((data.dev(), data.ino()));
    match inputs.iter().find(same) {
        None => Ok(()),
        Some(input) if *input == output => Err(Fault::bad(format!(
            "{output}: it is an input, and would be overwritten"
        ))),
        Some(input) => Err(Fault::bad(format!(
            "{output}: it is the same file as {}, an input, which would be overwritten",
            shown_name(input)
        ))),
    }
}

/// Where a file is, whatever its name: its device and its number there.
pub fn place(name: &str) -> Option<(u64, u64)> {
    let data = if name == STANDARD {
        let input = io::stdin().as_fd().try_clone_to_owned();
        input.and_then(|input| File::from(input).metadata())
    } else {
        fs::metadata(name)
    };
    data.ok().map(|data| (data.dev(), data.ino()))
}
