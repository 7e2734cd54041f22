//! Converts the cases of ../vectors from the edition before to this one; where an outcome is not kept nothing is written.
use harness::{editions, files};

fn main() -> std::process::ExitCode {
    let all = editions::converted();
    for c in &all {
        println!("{}: {} of {} day files converted, {} outcomes made anew", c.name, c.days, c.cases, c.outcomes);
    }
    files::write(&all.into_iter().flat_map(|c| c.files).collect::<Vec<_>>())
}
