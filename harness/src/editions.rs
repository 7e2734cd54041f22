//! Cases of the edition before, brought to this one: what the request changed in their files, and nothing else.
use crate::accounts::in_order;
use crate::files::{top, Made};
use crate::layout::{class_at, counts, CLASS_WORDS, PROJECTED, UNDERLYING};
use crate::many::{call_all, reports};
use crate::reading::read_report;
use crate::reckoner::{
    call_bytes, call_words, check_length, is_expired_future, net, read_day, read_records, text, to_bytes, to_words, Refusal,
};
use crate::requests::{cases, check_rewriting, numbers, path, report_cases, rewritings, Case, REPORTS};
use crate::rewriting::{add_record, rewrite};
use crate::vectors::vectors;
use std::collections::BTreeSet;
use std::fs;
use std::path::Path;

/// U8: of a day file that row 18 refuses, the projected prices of each class put in order; those that are in order stay as they are.
pub fn with_prices_in_order(day: &[u32]) -> Vec<u32> {
    let mut out = day.to_vec();
    if read_day(day).is_err_and(|r| r.number == 18) {
        for class in out[1..class_at(counts(day).0)].chunks_mut(CLASS_WORDS) {
            // past row 12 these words are of one kind, so that they stand as the prices do
            let prices = in_order(class[UNDERLYING], class[PROJECTED..].try_into().expect("ten prices"));
            class[PROJECTED..].copy_from_slice(&prices);
        }
    }
    out
}

/// The heads of the lines that read projected prices which the conversion changed: of groups with a net of an exercised option or, since U9, of
/// an expired future of such a class. Neither is a fail.
pub fn heads(before: &[u32], after: &[u32], batch: &[u32]) -> Result<BTreeSet<String>, Refusal> {
    let day = read_day(after)?;
    check_length(batch)?;
    let positions = net(&day, &read_records(&day, batch)?)?;
    let mut out = BTreeSet::new();
    for ((place, exercised, _), position) in positions {
        let number = day.series[place].class_number;
        let c = day.classes.iter().position(|class| class.number == number).expect("a class");
        let words = class_at(c)..class_at(c + 1);
        let reads = exercised || is_expired_future(day.series[place].series_type);
        if reads && position.net != 0 && before[words.clone()] != after[words] {
            out.insert(format!("O {} ", day.classes[c].group));
        }
    }
    Ok(out)
}

/// Whether a printed text is the one before but for what projected prices give: in the lines with these heads all behind spread, MTM and
/// premium, and the totals with them.
pub fn is_kept(before: &str, after: &str, heads: &BTreeSet<String>) -> bool {
    let kept = |text: &str| -> Vec<String> {
        let fields = |line: &str| match line {
            _ if heads.iter().any(|head| line.starts_with(head)) => 5,
            _ if line.starts_with("TOTAL") && !heads.is_empty() => 1,
            _ => usize::MAX,
        };
        text.lines().map(|line| line.split(' ').take(fields(line)).collect::<Vec<_>>().join(" ")).collect()
    };
    kept(before) == kept(after)
}

/// The cases of the folders, or of a request's file.
pub struct Converted {
    pub name: String,
    pub cases: usize,
    /// Day files that changed, and outcomes that were made anew.
    pub days: usize,
    pub outcomes: usize,
    pub files: Vec<Made>,
}

/// Day file and printed text of each folder of ../vectors. What the outside reckoner printed is kept.
fn folders() -> Converted {
    let all = vectors();
    let mut out = Converted { name: "folders".to_string(), cases: all.len(), days: 0, outcomes: 0, files: Vec::new() };
    for v in all {
        let words = to_words(&v.day);
        // a file of no whole words stays
        let day = if v.day.len() % 4 == 0 { to_bytes(&with_prices_in_order(&words)) } else { v.day.clone() };
        let mut memory = vec![0; 4460];
        let answer = call_bytes(&day, &v.batch, &mut memory);
        let printed = text(&answer.map(|n| read_report(&to_words(&memory)[..n]).expect("a report")));
        let heads = heads(&words, &to_words(&day), &to_words(&v.batch)).unwrap_or_default();
        assert!(is_kept(&v.text, &printed, &heads), "{}: not kept", v.name);
        out.days += usize::from(day != v.day);
        out.outcomes += usize::from(printed != v.text);
        let folder = Path::new(&v.name);
        out.files.extend([(folder.join("day.w32"), day), (folder.join("stdout"), printed.into_bytes())]);
    }
    out
}

/// What a case has as the report of this batch is kept in the report by the converted day file.
fn check_kept(case: &Case, day: &[u32], batch: &[u32], before: &[u32], after: &[u32]) {
    let heads = heads(&case.words("day"), day, batch).unwrap_or_default();
    let printed = |words| text(&Ok(read_report(words).expect("a report")));
    assert!(before == after || is_kept(&printed(before), &printed(after), &heads), "{}: not kept", case.name);
}

/// The memory's front as the call over words writes it by the converted day file; its answer and all behind must be the case's.
fn reported(case: &Case, day: &[u32]) -> Vec<u32> {
    let (batch, before, mut memory) = (case.words("batch"), case.memory_after(), case.lent("memory"));
    let answer = call_words(day, &batch, &case.words("deposits"), &mut memory);
    assert_eq!(numbers(answer), case.answer(), "{}", case.name);
    let n = answer.unwrap_or(0);
    assert_eq!(memory[n..], before[n..], "{}", case.name);
    check_kept(case, day, &batch, &before[..n], &memory[..n]);
    memory[..n].to_vec()
}

/// The same of the call for many accounts and its result list.
fn all_reported(case: &Case, day: &[u32]) -> Vec<u32> {
    let (before, mut results, mut memory) = (case.memory_after(), case.lent("results"), case.lent("memory"));
    let (batches, lengths) = (case.words("batches"), case.words("lengths"));
    let answer = call_all(day, &batches, &lengths, &mut results, &mut memory);
    assert_eq!((numbers(answer), &results), (case.answer(), &case.words("results_after")), "{}", case.name);
    let n = answer.unwrap_or(0);
    assert_eq!(memory[n..], before[n..], "{}", case.name);
    if answer.is_ok() {
        let mut behind = &batches[..];
        for ((&length, before), after) in lengths.iter().zip(reports(&results, &before)).zip(reports(&results, &memory)) {
            let (batch, others) = behind.split_at(length as usize);
            behind = others;
            check_kept(case, day, batch, before, after);
        }
    }
    memory[..n].to_vec()
}

/// The same of the calls that rewrite a batch; all must be the case's.
fn rewritten(case: &Case, day: &[u32]) -> Vec<u32> {
    let add_record = |_: &[u32], batch: &[u32], record: &[u32], memory: &mut [u32]| add_record(day, batch, record, memory);
    check_rewriting(case, |_, batch, memory| rewrite(day, batch, memory), add_record);
    case.words("written")
}

/// The file of a request, the day file of each case converted and what is written made anew.
fn request(name: &str, cases: Vec<Case>, written: fn(&Case, &[u32]) -> Vec<u32>) -> Converted {
    let mut out = Converted { name: name.to_string(), cases: cases.len(), days: 0, outcomes: 0, files: Vec::new() };
    let mut lines = Vec::new();
    for case in cases {
        let day = with_prices_in_order(&case.words("day"));
        let written = written(&case, &day);
        out.days += usize::from(day != case.words("day"));
        out.outcomes += usize::from(written != case.words("written"));
        lines.extend([("day", day), ("written", written)]);
    }
    let mut lines = lines.into_iter();
    let line = |line: &str| match line.split(' ').next() {
        Some(name @ ("day" | "written")) => {
            let (expected, words) = lines.next().expect("a case");
            assert_eq!(name, expected, "{line}");
            words.iter().fold(name.to_string(), |line, w| format!("{line} {w}"))
        }
        _ => line.to_string(),
    };
    let before = fs::read_to_string(top().join(path(name))).expect("cases");
    out.files.push((path(name), before.lines().map(line).map(|l| l + "\n").collect::<String>().into_bytes()));
    out
}

/// All cases of ../vectors that came before this edition.
pub fn converted() -> Vec<Converted> {
    let mut out = vec![folders(), request("U01", cases("U01", 30), all_reported)];
    let earlier = REPORTS.iter().filter(|(name, _)| *name < "U08");
    out.extend(earlier.map(|&(name, count)| request(name, report_cases(name, count), reported)));
    out.push(request("U07", rewritings(), rewritten));
    out
}
