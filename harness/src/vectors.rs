//! The cases of ../vectors, all of them: a missing file ends the run.
use crate::files::top;
use std::fs;
use std::path::Path;

pub struct Vector {
    /// Its folder, below the repository's top folder.
    pub name: String,
    pub day: Vec<u8>,
    pub batch: Vec<u8>,
    /// What the report program prints.
    pub text: String,
}

fn vector(name: String) -> Vector {
    let read = |file: &str| fs::read(top().join(&name).join(file)).unwrap_or_else(|e| panic!("{name}/{file}: {e}"));
    Vector { day: read("day.w32"), batch: read("pos.w32"), text: String::from_utf8(read("stdout")).expect("text"), name }
}

/// Every case, by name; as many as the file `count` says.
pub fn vectors() -> Vec<Vector> {
    let all = Path::new("vectors");
    let count = fs::read_to_string(top().join(all).join("count")).expect("count");
    let entries = fs::read_dir(top().join(all)).expect("vectors").map(|e| e.expect("entry"));
    let folders = entries.filter(|e| e.path().is_dir());
    let mut names: Vec<String> = folders.map(|e| all.join(e.file_name()).display().to_string()).collect();
    names.sort();
    assert_eq!(names.len().to_string(), count.trim(), "vectors");
    names.into_iter().map(vector).collect()
}
