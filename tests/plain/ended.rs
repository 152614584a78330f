//! How a command ends.

use crate::cursor::Fault;

pub struct Ended {
    pub status: u8,
    /// The line on standard error without its LF, empty where there is none.
    pub line: String,
    pub out: Vec<u8>,
}

impl Ended {
    pub fn new(status: u8, line: impl Into<String>, out: Vec<u8>) -> Ended {
        let line = line.into();
        Ended { status, line, out }
    }

    pub fn done(out: Vec<u8>) -> Ended {
        Ended::new(0, "", out)
    }

    pub fn differs(out: Vec<u8>) -> Ended {
        Ended::new(1, "", out)
    }

    pub fn bad_words() -> Ended {
        Ended::new(2, "bad words", Vec::new())
    }

    /// The program writes a text of its own.
    pub fn text() -> Ended {
        Ended::new(0, "(a text)", Vec::new())
    }

    pub fn bad_manifest(what: String) -> Ended {
        Ended::new(3, format!("bad manifest: {what}"), Vec::new())
    }

    pub fn bad_record(copy: usize, fault: Fault, out: Vec<u8>) -> Ended {
        let line = format!(
            "bad record: copy {copy} offset {} {}",
            fault.offset,
            fault.reason.word()
        );
        Ended::new(5, line, out)
    }

    pub fn bad_profile() -> Ended {
        Ended::new(5, "bad record: profile", Vec::new())
    }

    pub fn read_fault() -> Ended {
        Ended::new(6, "read fault", Vec::new())
    }
}
