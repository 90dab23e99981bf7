//! The family of refusals, ten names under ten numbers.

use noketualo::Refusal;
use std::collections::HashSet;

#[test]
fn numbers_run_from_one_to_ten() {
    let numbers: Vec<u8> = Refusal::ALL.map(Refusal::number).to_vec();
    assert_eq!(numbers, (1..=10).collect::<Vec<u8>>());
}

#[test]
fn a_number_gives_its_refusal_back() {
    for number in 0..=u8::MAX {
        let refusal = Refusal::from_number(number);
        assert_eq!(refusal.is_some(), (1..=10).contains(&number));
        assert!(refusal.is_none_or(|refusal| refusal.number() == number));
    }
}

#[test]
fn each_has_a_sentence_of_its_own() {
    let sentences: HashSet<String> = Refusal::ALL.iter().map(Refusal::to_string).collect();
    assert_eq!(sentences.len(), Refusal::ALL.len());
    assert!(sentences.iter().all(|sentence| sentence.ends_with('.')));
}
