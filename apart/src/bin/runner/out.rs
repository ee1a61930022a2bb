//! Standard output. A reader that has seen enough closes the pipe; that is no error.

use std::io::{BufWriter, ErrorKind, Stdout, Write};

pub struct Out {
    out: BufWriter<Stdout>,
    open: bool,
    failed: Option<std::io::Error>,
}

impl Out {
    pub fn new() -> Out {
        Out { out: BufWriter::new(std::io::stdout()), open: true, failed: None }
    }

    pub fn is_open(&self) -> bool {
        self.open
    }

    fn done(&mut self, result: std::io::Result<()>) {
        if let Err(error) = result {
            self.open = false;
            if error.kind() != ErrorKind::BrokenPipe {
                self.failed = Some(error);
            }
        }
    }

    pub fn text(&mut self, text: &str) {
        if self.open {
            let result = self.out.write_all(text.as_bytes());
            self.done(result);
        }
    }

    pub fn line(&mut self, line: &str) {
        self.text(line);
        self.text("\n");
    }

    /// Writes what is left; the error, if there was one.
    pub fn end(&mut self) -> Option<std::io::Error> {
        if self.open {
            let result = self.out.flush();
            self.done(result);
        }
        self.failed.take()
    }
}
