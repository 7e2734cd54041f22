//! Files of the repository that a program here makes: written, or compared with what is committed.
use std::fs;
use std::path::{Path, PathBuf};
use std::process::ExitCode;

/// A path below the repository's top folder, and the content.
pub type Made = (PathBuf, Vec<u8>);

/// The repository's top folder.
pub fn top() -> PathBuf {
    Path::new(env!("CARGO_MANIFEST_DIR")).join("..")
}

fn write_each(files: &[Made]) -> std::io::Result<()> {
    for (path, content) in files {
        let path = top().join(path);
        fs::create_dir_all(path.parent().unwrap())?;
        fs::write(path, content)?;
    }
    Ok(())
}

pub fn write(files: &[Made]) -> ExitCode {
    match write_each(files) {
        Ok(()) => ExitCode::SUCCESS,
        Err(e) => {
            eprintln!("{e}");
            ExitCode::FAILURE
        }
    }
}

/// Without arguments writes the files; with `--check` compares them and fails on a difference.
pub fn write_or_check(files: &[Made]) -> ExitCode {
    let arguments: Vec<String> = std::env::args().skip(1).collect();
    match arguments.iter().map(String::as_str).collect::<Vec<_>>()[..] {
        [] => write(files),
        ["--check"] => {
            let mut status = ExitCode::SUCCESS;
            for (path, content) in files {
                if fs::read(top().join(path)).ok().as_ref() != Some(content) {
                    eprintln!("{} differs from what is made", path.display());
                    status = ExitCode::FAILURE;
                }
            }
            status
        }
        _ => {
            eprintln!("usage: [--check]");
            ExitCode::from(2)
        }
    }
}
