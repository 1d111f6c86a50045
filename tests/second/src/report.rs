//! One line for each check, and the count at the end.

use std::process::ExitCode;

/// Octets as they stand in a message.
pub fn hex(octets: &[u8]) -> String {
    let octets: Vec<String> = octets.iter().map(|octet| format!("{octet:02X}")).collect();
    octets.join(" ")
}

/// Says what was compared, or gives the first difference.
pub type Verdict = Result<String, String>;

#[derive(Default)]
pub struct Report {
    passed: u32,
    failed: u32,
}

impl Report {
    /// `subject` is the thing under test, `name` says which check it is.
    pub fn add(&mut self, subject: &str, name: &str, verdict: Verdict) {
        match verdict {
            Ok(compared) => {
                self.passed += 1;
                println!("{subject}: {name}: {compared}");
            }
            Err(difference) => {
                self.failed += 1;
                println!("{subject}: {name}: FAILED: {difference}");
            }
        }
    }

    /// The last line and the exit status.
    pub fn close(self) -> ExitCode {
        println!("{} passed, {} failed", self.passed, self.failed);
        // Nothing checked is not a success either.
        if self.failed == 0 && self.passed > 0 {
            ExitCode::SUCCESS
        } else {
            ExitCode::FAILURE
        }
    }
}
