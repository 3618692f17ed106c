//! Stored runs: what a program is given, and what it must write.

use std::path::Path;

/// A run: the crate that it is stored in, the arguments, standard input, the files in the folder that the program is
/// run in, and standard output.
pub struct Stored {
    pub name: &'static str,
    pub arguments: Vec<&'static str>,
    pub input: Option<Vec<u8>>,
    pub files: Vec<(&'static str, Vec<u8>)>,
    pub output: Vec<u8>,
}

impl Stored {
    /// Writes the run into its crate; where there are no arguments, no input or no output, no file for them.
    pub fn write(&self, crates: &Path) -> std::io::Result<()> {
        let folder = crates.join(self.name);
        for (file, bytes) in &self.files {
            std::fs::create_dir_all(folder.join("data"))?;
            std::fs::write(folder.join("data").join(file), bytes)?;
        }
        if !self.arguments.is_empty() {
            std::fs::write(folder.join("args"), self.arguments.join("\n") + "\n")?;
        }
        if let Some(input) = &self.input {
            std::fs::write(folder.join("stdin"), input)?;
        }
        if !self.output.is_empty() {
            std::fs::write(folder.join("stdout"), &self.output)?;
        }
        Ok(())
    }
}
