//! Writes the committed cases and what is printed for them, or checks both with `--check`.
use harness::{cases, files};

fn main() -> std::process::ExitCode {
    files::write_or_check(&cases::files())
}
