//! The two evaluators. A case has what is evaluated, `values` before, and `answer`: `["done", values after]`, or `["refused", number, node or gate]`,
//! which leaves the values as they were.
use crate::json::Json;
use ramstitcher::{eval_gates, eval_words, Refusal};

pub fn refusal(answer: &[Json]) -> Refusal {
    Refusal { number: answer[1].number(), node: answer[2].number() as usize }
}

fn same<T: PartialEq + Clone>(answer: &Json, before: &[T], after: &[T], found: Result<(), Refusal>, read: fn(&Json) -> Vec<T>) -> bool {
    let answer = answer.list();
    match answer[0].text() {
        b"done" => found == Ok(()) && after == read(&answer[1]),
        _ => found == Err(refusal(answer)) && after == before,
    }
}

pub fn words(case: &Json) -> bool {
    let before = case.get("values").words();
    let mut values = before.clone();
    let found = eval_words(&case.get("table").words(), &case.get("addrs").words(), case.get("word").number(), &mut values);
    same(case.get("answer"), &before, &values, found, Json::words)
}

pub fn gates(case: &Json) -> bool {
    let before = case.get("values").bytes();
    let mut values = before.clone();
    let found = eval_gates(&case.get("gates").halves(), &mut values);
    same(case.get("answer"), &before, &values, found, Json::bytes)
}
