//! What a program prints.

/// What goes to standard output, text or other bytes, and to standard error.
#[derive(Debug, Default, PartialEq, Eq)]
pub struct Printed {
    pub stdout: Vec<u8>,
    pub stderr: String,
}

impl Printed {
    /// Text on standard output.
    pub(crate) fn print(&mut self, text: &str) {
        self.stdout.extend_from_slice(text.as_bytes());
    }

    /// A line on standard error, behind the program's name.
    pub(crate) fn complain(&mut self, program: &str, message: &str) {
        self.stderr += &format!("{program}: {message}\n");
    }

    /// What went to standard output. Panics if it is no text.
    pub fn text(self) -> String {
        String::from_utf8(self.stdout).expect("text on standard output")
    }
}
