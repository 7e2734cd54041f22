//! The reckoner against the vectors.
use harness::cents::{from_cents, to_cents};
use harness::reckoner::{call_bytes, call_words, reckon, text, to_words};
use harness::requests::{
    check_conversion, check_report, check_rewriting, check_worst_moment, conversions, reports, rewritings, worst_moments,
};
use harness::rewriting::{add_record, rewrite};
use harness::vectors::vectors;
use harness::worst_moment::worst_moment;

#[test]
fn agrees_with_the_vectors() {
    for v in vectors() {
        let result =
            call_bytes(&v.day, &v.batch, &mut [0; 4 * 1115]).and_then(|_| reckon(&to_words(&v.day), &to_words(&v.batch)));
        assert_eq!(text(&result), v.text, "{}", v.name);
    }
}

#[test]
fn agrees_with_the_cases_of_requests() {
    for case in reports() {
        check_report(&case, call_words);
    }
    for case in rewritings() {
        check_rewriting(&case, rewrite, add_record);
    }
    for case in worst_moments() {
        check_worst_moment(&case, worst_moment);
    }
    for case in conversions() {
        check_conversion(&case, to_cents, from_cents);
    }
}
