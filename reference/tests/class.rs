//! Request 7: a whole class in one call.

use reference::class::{class_answer, class_of, show_class};
use reference::class_counts::ClassMeasures;
use reference::generate::{Cases, Kind, Size};
use reference::hand::read_table;
use reference::lines::answer_line;
use reference::tally::Tally;

const LEAST: &str = "4d4f44554c45206d2050524f43206d61696e282920454e4450524f4320454e444d4f44554c45";

#[test]
fn every_refusal_of_a_class_has_a_case() {
    let table = read_table(include_str!("../cases/hand.txt")).expect("the table can be read");
    let cases = table.iter().filter(|case| case.case.starts_with("class "));
    let answers: Vec<&str> = cases.map(|case| case.answer.as_str()).collect();
    for refusal in ["0", "1", "2", "20", "21", "27"] {
        assert!(answers.contains(&refusal), "no class refused by {refusal}");
    }
    let answered = answers.iter().filter(|answer| answer.contains(" | "));
    assert!(answered.count() > 20);
}

#[test]
fn lines_of_classes() {
    let one = "1 0 0 1 0 0 0 0 - -";
    let line = |fields: &str| answer_line(&format!("class {fields}"));
    assert_eq!(
        line(&format!("{LEAST} 26000000 5 1 - 0 16384 16384 64 4096")),
        format!("0 | {one}")
    );
    assert_eq!(
        line(&format!(
            "{LEAST}{LEAST} 2600000026000000ff 5 1 - 0 16384 16384 128 8192"
        )),
        format!("0 | {one} | {one}")
    );
    assert_eq!(line("- - 5 1 - 0 16384 16384 0 0"), "0");
    assert_eq!(line("- - 4294967295 1 - 0 16384 16384 0 0"), "0");
    for bad in [
        "- - 5 1 - 0 16384 16384 0",
        "- - 5 1 - 0 16384 16384 0 0 0",
        "- -  5 1 - 0 16384 16384 0 0",
        "- 0 5 1 - 0 16384 16384 0 0",
        "- - 4294967296 1 - 0 16384 16384 0 0",
        "- - 5 1 - 0 16384 16384 - 0",
        "- - 5 1 - 0 16384 16384 0 -1",
    ] {
        assert_eq!(line(bad), "bad line", "{bad}");
    }
}

#[test]
fn a_line_can_be_read_back() {
    for line in Cases::new(5, Kind::Class, Size::Short).take(200) {
        let lent = class_of(&line).expect("a class line");
        assert_eq!(show_class(&lent), line);
    }
}

/// Generated classes have all that the request speaks of, and most of them are answered.
#[test]
fn classes_miss_nothing() {
    let mut tally = Tally::default();
    let mut measures = ClassMeasures::default();
    let (mut answered, mut running) = (0, 0);
    for line in Cases::new(7, Kind::Class, Size::Short).take(1_500) {
        let lent = class_of(&line).expect("a class line");
        let answer = class_answer(&lent);
        answered += usize::from(answer.refusal == 0);
        running += answer
            .modules
            .iter()
            .filter(|module| module.steps >= 10)
            .count();
        measures.count(&lent, &answer);
        tally.count(&answer_line(&line));
    }
    assert!(answered > 1_000, "only {answered} answered");
    assert!(running > 2_000, "only {running} modules made ten steps");
    let shown = measures.show() + &tally.show();
    let missing: Vec<&str> = shown.lines().filter(|line| line.ends_with(": 0")).collect();
    // 1 and 2 refuse the class, 7 takes a long text, and a class has no K.
    let none = [
        "refusal 1: 0",
        "refusal 2: 0",
        "refusal 7: 0",
        "ending 9: 0",
        "ending 10: 0",
    ];
    assert_eq!(missing, none, "{shown}");
}
