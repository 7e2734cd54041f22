//! Writes seeds of the fuzz target into a folder: two bytes of day length, two of memory length, one of the number of words of deposits,
//! these, day file, batch.
use harness::accounts::{account, damage, mixed, Account};
use harness::deposits::mixed_case;
use harness::reckoner::to_bytes;
use harness::rng::Rng;
use harness::samples::samples;
use std::path::Path;
use std::process::ExitCode;

fn seed(a: &Account, deposits: &[u32], room: u16) -> Vec<u8> {
    let day = to_bytes(&a.day);
    let mut out = (day.len() as u16).to_le_bytes().to_vec();
    out.extend(room.to_le_bytes());
    out.push(deposits.len() as u8);
    out.extend(to_bytes(deposits));
    out.extend(day);
    out.extend(to_bytes(&a.batch));
    out
}

fn main() -> ExitCode {
    let Some(folder) = std::env::args().nth(1) else {
        eprintln!("usage: seeds FOLDER");
        return ExitCode::from(2);
    };
    let folder = Path::new(&folder);
    std::fs::create_dir_all(folder).expect("folder");
    let write = |name: String, content: Vec<u8>| std::fs::write(folder.join(name), content).expect("seed");
    for s in samples() {
        write(format!("sample-{}", s.name), seed(&s.account, &[], 4460));
    }
    let mut rng = Rng::new(99);
    for i in 0..60 {
        let mut a = account(&mut rng, mixed(i));
        if i % 3 == 2 {
            damage(&mut rng, &mut a);
        }
        write(format!("account-{i:02}"), seed(&a, &[], 4460));
    }
    for i in 0..60 {
        let (a, mut deposits) = mixed_case(&mut rng, i);
        deposits.truncate(128);
        write(format!("deposits-{i:02}"), seed(&a, &deposits, 4460));
    }
    ExitCode::SUCCESS
}
