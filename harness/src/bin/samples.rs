//! Writes the sample accounts and their README, or checks them with `--check`.
use harness::{files, samples};

fn main() -> std::process::ExitCode {
    files::write_or_check(&samples::files())
}
