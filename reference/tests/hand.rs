//! Every case of the hand-worked table gets the answer worked out by hand.

use reference::hand::{read_table, HandCase};
use reference::lines::answer_line;

fn table() -> Vec<HandCase> {
    read_table(include_str!("../cases/hand.txt")).expect("the table can be read")
}

#[test]
fn every_case_has_its_answer() {
    let mut wrong = Vec::new();
    for case in table() {
        let answer = answer_line(&case.case);
        if answer != case.answer {
            wrong.push(format!(
                "{}\n  by hand {}\n  program {answer}",
                case.title, case.answer
            ));
        }
    }
    assert!(
        wrong.is_empty(),
        "{} cases differ:\n{}",
        wrong.len(),
        wrong.join("\n")
    );
}

#[test]
fn every_ruling_has_a_case() {
    let titles: Vec<String> = table().into_iter().map(|case| case.title).collect();
    for ruling in 1..=41 {
        let tag = format!("[ruling {ruling}]");
        assert!(
            titles.iter().any(|title| title.starts_with(&tag)),
            "no case for {tag}"
        );
    }
    for example in 'a'..='j' {
        let tag = format!("[example {example}]");
        assert!(
            titles.iter().any(|title| title.starts_with(&tag)),
            "no case for {tag}"
        );
    }
}

#[test]
fn every_refusal_and_ending_has_a_case() {
    let answers: Vec<String> = table().into_iter().map(|case| case.answer).collect();
    for refusal in 1..=19 {
        let start = format!("0 {refusal} ");
        assert!(
            answers.iter().any(|answer| answer.starts_with(&start)),
            "no refusal {refusal}"
        );
    }
    for ending in 1..=10 {
        let start = format!("{ending} 0 ");
        assert!(
            answers.iter().any(|answer| answer.starts_with(&start)),
            "no ending {ending}"
        );
    }
}
