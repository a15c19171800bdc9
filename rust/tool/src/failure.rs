//! Why a command ends without its result.

use std::fmt;
use std::io;
use std::process::ExitCode;

use sibukyaran::Refusal;

/// Why a command ends without its result. In each case every file is as it was.
#[derive(Debug)]
pub enum Failure {
    /// The command line is none that there is.
    Usage(String),
    /// The library refuses.
    Refused(Refusal),
    /// What a file or a pipe gives is not what it should be, or cannot be had.
    Input(String),
    /// Nobody reads what is printed any more.
    Closed,
}

impl Failure {
    /// Of a file that could not be read or written.
    pub fn of_file(name: &str, error: &io::Error) -> Failure {
        Failure::Input(format!("{name}: {error}"))
    }

    /// Tells the reader, and gives the exit status.
    pub fn close(self) -> ExitCode {
        match self {
            Failure::Closed => ExitCode::SUCCESS,
            Failure::Usage(_) => {
                eprintln!("sibukyaran: {self}");
                ExitCode::from(2)
            }
            _ => {
                eprintln!("sibukyaran: {self}");
                ExitCode::FAILURE
            }
        }
    }
}

impl From<Refusal> for Failure {
    fn from(refusal: Refusal) -> Failure {
        Failure::Refused(refusal)
    }
}

impl fmt::Display for Failure {
    fn fmt(&self, f: &mut fmt::Formatter) -> fmt::Result {
        match self {
            Failure::Usage(text) | Failure::Input(text) => f.write_str(text),
            Failure::Refused(refusal) => write!(f, "refused with {}: {refusal}", refusal.number()),
            Failure::Closed => f.write_str("nobody reads the output"),
        }
    }
}
