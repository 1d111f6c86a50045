//! Temporary files, named after this process and gone when dropped.

use std::fs::{self, File};
use std::path::PathBuf;

pub struct Temp(PathBuf);

impl Temp {
    pub fn holding(name: &str, octets: &[u8]) -> Result<Self, String> {
        let name = format!("second-{}-{name}", std::process::id());
        let temp = Temp(std::env::temp_dir().join(name));
        match fs::write(&temp.0, octets) {
            Ok(()) => Ok(temp),
            Err(error) => Err(format!("{}: {error}", temp.0.display())),
        }
    }

    /// Open for reading, from the start.
    pub fn source(&self) -> Result<File, String> {
        File::open(&self.0).map_err(|error| format!("{}: {error}", self.0.display()))
    }

    /// Open for writing, emptied.
    pub fn sink(&self) -> Result<File, String> {
        File::create(&self.0).map_err(|error| format!("{}: {error}", self.0.display()))
    }

    pub fn content(&self) -> Result<Vec<u8>, String> {
        fs::read(&self.0).map_err(|error| format!("{}: {error}", self.0.display()))
    }
}

impl Drop for Temp {
    fn drop(&mut self) {
        // Nobody is left to tell, should this fail.
        let _ = fs::remove_file(&self.0);
    }
}
