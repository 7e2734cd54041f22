//! The cases of a request, ../vectors/U01.txt and so on: lines of a name and plain numbers, an empty line behind each case.
use crate::files::top;
use crate::reckoner::Refusal;
use crate::worst_moment::Moment;
use std::collections::BTreeMap;
use std::fs;
use std::path::{Path, PathBuf};

pub struct Case {
    /// The request, the case's number in its file and the call.
    pub name: String,
    call: String,
    fields: BTreeMap<String, Vec<u64>>,
}

impl Case {
    fn field(&self, name: &str) -> &[u64] {
        self.fields.get(name).unwrap_or_else(|| panic!("{}: no {name}", self.name))
    }

    pub fn words(&self, name: &str) -> Vec<u32> {
        self.field(name).iter().map(|&n| u32::try_from(n).expect("a word")).collect()
    }

    /// A lent memory: so many entries as the line says, each 7.
    pub fn lent(&self, name: &str) -> Vec<u32> {
        vec![7; self.field(name)[0] as usize]
    }

    /// The memory afterwards: the words written, and behind them what was lent.
    pub fn memory_after(&self) -> Vec<u32> {
        let (mut memory, written) = (self.lent("memory"), self.words("written"));
        memory[..written.len()].copy_from_slice(&written);
        memory
    }

    /// Number and value of the answer.
    pub fn answer(&self) -> (u32, usize) {
        let answer = self.field("answer");
        assert_eq!(answer.len(), 2, "{}", self.name);
        (answer[0] as u32, answer[1] as usize)
    }
}

/// An answer as a case has it: 0 and the value, or the refusal's number and place.
pub fn numbers(answer: Result<usize, Refusal>) -> (u32, usize) {
    answer.map_or_else(|r| (r.number, r.place), |n| (0, n))
}

/// Where they stand, below the repository's top folder.
pub fn path(request: &str) -> PathBuf {
    Path::new("vectors").join(format!("{request}.txt"))
}

/// The cases of a request, numbered from 0 without a gap, as many as are said to be there.
pub fn cases(request: &str, count: usize) -> Vec<Case> {
    let text = fs::read_to_string(top().join(path(request))).unwrap_or_else(|e| panic!("{request}: {e}"));
    let mut out: Vec<Case> = Vec::new();
    for line in text.lines().filter(|l| !l.is_empty()) {
        let mut parts = line.split(' ');
        let name = parts.next().expect("a name");
        if name == "case" {
            assert_eq!(parts.next(), Some(out.len().to_string().as_str()), "{request}: {line}");
            let call = parts.next().expect("a call").to_string();
            out.push(Case { name: format!("{request} {line}"), call, fields: BTreeMap::new() });
            continue;
        }
        let numbers = parts.map(|n| n.parse().unwrap_or_else(|e| panic!("{request}: {line}: {e}"))).collect();
        let case = out.last_mut().expect("a case");
        assert!(case.fields.insert(name.to_string(), numbers).is_none(), "{}: {name} twice", case.name);
    }
    assert_eq!(out.len(), count, "{request}");
    out
}

/// The requests that have cases of the call over words, and how many.
pub const REPORTS: [(&str, usize); 6] = [("U03", 67), ("U04", 58), ("U05", 81), ("U06", 69), ("U08", 71), ("U09", 96)];

/// The cases of one of them; those from before U5 have no deposits.
pub fn report_cases(request: &str, count: usize) -> Vec<Case> {
    let mut out = cases(request, count);
    for case in out.iter_mut().filter(|_| request < "U05") {
        assert!(case.fields.insert("deposits".to_string(), Vec::new()).is_none(), "{}: deposits", case.name);
    }
    out
}

/// All cases of the call over words.
pub fn reports() -> Vec<Case> {
    REPORTS.iter().flat_map(|&(request, count)| report_cases(request, count)).collect()
}

/// Makes a call on the case's memory: its answer and what it leaves there must be the case's.
fn check(case: &Case, call: impl FnOnce(&mut [u32]) -> Result<usize, Refusal>) {
    let mut memory = case.lent("memory");
    let answer = call(&mut memory);
    assert_eq!(numbers(answer), case.answer(), "{}", case.name);
    assert_eq!(memory, case.memory_after(), "{}", case.name);
}

/// A case of the call over words: day file, batch, deposits and memory.
pub fn check_report(case: &Case, call: impl FnOnce(&[u32], &[u32], &[u32], &mut [u32]) -> Result<usize, Refusal>) {
    check(case, |memory| call(&case.words("day"), &case.words("batch"), &case.words("deposits"), memory));
}

/// All cases of the calls that rewrite a batch.
pub fn rewritings() -> Vec<Case> {
    cases("U07", 135)
}

/// Such a case: day file, batch and memory, or with a record before the memory.
pub fn check_rewriting(
    case: &Case,
    rewrite: impl FnOnce(&[u32], &[u32], &mut [u32]) -> Result<usize, Refusal>,
    add_record: impl FnOnce(&[u32], &[u32], &[u32], &mut [u32]) -> Result<usize, Refusal>,
) {
    let (day, batch) = (case.words("day"), case.words("batch"));
    check(case, |memory| match case.call.as_str() {
        "rewrite" => rewrite(&day, &batch, memory),
        "add_record" => add_record(&day, &batch, &case.words("record"), memory),
        _ => panic!("{}: no such call", case.name),
    });
}

/// All cases of the worst moment.
pub fn worst_moments() -> Vec<Case> {
    cases("U10", 87)
}

/// Such a case: day file, batch and trades; the four numbers stand beside an answer alone.
pub fn check_worst_moment(case: &Case, call: impl FnOnce(&[u32], &[u32], &[u32]) -> Result<Moment, Refusal>) {
    assert_eq!(case.call, "worst_moment", "{}", case.name);
    let answer = call(&case.words("day"), &case.words("batch"), &case.words("trades"));
    assert_eq!(numbers(answer.map(|_| 0)), case.answer(), "{}", case.name);
    let told = answer.ok().map(|m| vec![m.margin as u64, m.step.into(), m.applied.into(), m.left_out.into()]);
    assert_eq!(told.as_ref(), case.fields.get("numbers"), "{}", case.name);
}

/// All cases of the calls that convert a batch.
pub fn conversions() -> Vec<Case> {
    cases("U11", 62)
}

/// Such a case: batch and memory.
pub fn check_conversion(
    case: &Case,
    to_cents: impl FnOnce(&[u32], &mut [u32]) -> Result<usize, Refusal>,
    from_cents: impl FnOnce(&[u32], &mut [u32]) -> Result<usize, Refusal>,
) {
    let batch = case.words("batch");
    check(case, |memory| match case.call.as_str() {
        "to_cents" => to_cents(&batch, memory),
        "from_cents" => from_cents(&batch, memory),
        _ => panic!("{}: no such call", case.name),
    });
}
