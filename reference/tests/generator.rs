//! The generator keeps its promises.

use reference::bench::{answer, Lent};
use reference::counts::{Event, Measures};
use reference::generate::{less_room, more_room, Cases, Kind, Random, Size};
use reference::lines::{answer_line, called, lent_of};
use reference::tally::Tally;

fn lines(seed: u64, count: usize, kind: Kind, size: Size) -> Vec<String> {
    Cases::new(seed, kind, size).take(count).collect()
}

#[test]
fn valid_modules_are_accepted() {
    for (count, kind, size) in [
        (3_000, Kind::Valid, Size::Short),
        (100, Kind::Valid, Size::Long),
        (500, Kind::Courses, Size::Short),
        (3_000, Kind::Counting, Size::Short),
    ] {
        for line in lines(7, count, kind, size) {
            let answer = answer_line(&line);
            assert!(!answer.starts_with("0 "), "{line}\n{answer}");
        }
    }
}

#[test]
fn a_mix_of_2000_misses_nothing() {
    for seed in 1..=3 {
        let mut tally = Tally::default();
        for line in lines(seed, 2_000, Kind::All, Size::Short) {
            tally.count(&answer_line(&line));
        }
        assert!(
            tally.show().ends_with("none missing\n"),
            "seed {seed}\n{}",
            tally.show()
        );
    }
}

/// Most cases of request 6 are aborted where some routine has an UNDO list, and end in
/// every way that the request speaks of.
#[test]
fn lists_are_run() {
    let mut times = [0; 11];
    let (mut aborted, mut with_lists, mut lasting) = (0, 0, 0);
    for line in lines(7, 2_000, Kind::Undo, Size::Short) {
        let answer = answer(&lent_of(&line).expect("a run line"));
        times[answer.ending as usize] += 1;
        aborted += answer.counts.times(Event::Struck);
        with_lists += u64::from(answer.counts.times(Event::UndoBegun) > 0);
        lasting += u64::from(answer.steps >= 10);
    }
    assert!(times[0] > 100 && times[0] < 300, "{times:?}");
    assert!(times[9] > 700 && times[10] > 250, "{times:?}");
    assert!(times[7] > 10 && times[8] > 10 && times[5] > 50, "{times:?}");
    assert!(aborted > 1_300 && with_lists > 1_200 && lasting > 1_300);
}

/// Cases of request 14 run, and are marked in every way that the request speaks of, at every
/// part of the listing.
#[test]
fn listings_are_marked() {
    let (mut refused, mut lasting, mut middle) = (0, 0, 0);
    let mut times = [0; 5];
    for line in lines(7, 2_000, Kind::Marking, Size::Short) {
        let answer = called(&line).expect("a mark line");
        refused += usize::from(answer.ending == 0);
        lasting += usize::from(answer.steps > 10);
        let index = answer.marked.map_or(0, |marked| marked.index);
        middle += usize::from(index > 0 && index + 1 < answer.places.len());
        for (times, event) in times.iter_mut().zip([
            Event::ListingEqual,
            Event::EntryDiffers,
            Event::EntryMissing,
            Event::EntrySurplus,
            Event::PartWord,
        ]) {
            *times += answer.counts.times(event);
        }
    }
    assert!((100..240).contains(&refused), "{refused} are refused");
    assert!(lasting > 1_500, "{lasting} run for more than ten steps");
    assert!(middle > 600, "{middle} differ in the middle");
    assert!(times.iter().all(|times| *times > 150), "{times:?}");
}

#[test]
fn the_same_seed_gives_the_same_lines() {
    let kind = Kind::All;
    assert_eq!(
        lines(5, 200, kind, Size::Short),
        lines(5, 200, kind, Size::Short)
    );
    assert_ne!(
        lines(5, 200, kind, Size::Short),
        lines(6, 200, kind, Size::Short)
    );
}

#[test]
fn every_line_is_a_case_line() {
    for name in [
        "valid", "courses", "counting", "undo", "hiding", "marking", "mistyped", "words", "bytes",
        "limits", "class", "listing", "all",
    ] {
        let kind = Kind::named(name).expect("a kind of cases");
        for (count, size) in [(1_000, Size::Short), (20, Size::Long)] {
            for line in lines(11, count, kind, size) {
                assert_ne!(answer_line(&line), "bad line", "{line}");
            }
        }
    }
}

#[test]
fn a_second_room_is_as_large() {
    let mut random = Random::new(3);
    let (mut scarce, mut undo_spent) = (0, 0);
    let plain = lines(3, 1_000, Kind::Valid, Size::Short);
    for line in plain
        .into_iter()
        .chain(lines(3, 1_000, Kind::Undo, Size::Short))
    {
        let mut second = lent_of(&line).expect("a run line");
        more_room(&mut random, &mut second);
        let first = less_room(&mut random, &second).expect("inside the bounds");
        assert_eq!(first.text, second.text);
        assert!(first.steps <= second.steps && first.depth <= second.depth);
        assert!(first.output_room <= second.output_room);
        assert!(second.inputs.starts_with(&first.inputs));
        assert_eq!(
            first.abort.map(|abort| abort.at),
            second.abort.map(|abort| abort.at)
        );
        let undo = |lent: &Lent| lent.abort.map(|abort| abort.undo);
        assert!(undo(&first) <= undo(&second));
        let ending = answer(&first).ending;
        scarce += usize::from((5..=8).contains(&ending));
        undo_spent += usize::from(ending == 10);
    }
    assert!(scarce > 300, "only {scarce} of 2,000 first runs broke off");
    assert!(
        undo_spent > 100,
        "only {undo_spent} of 1,000 spent their UNDO steps"
    );
}

/// Modules as a course has them run long; with those of requests 6 and 14 they come across
/// everything that is counted.
#[test]
fn courses_miss_nothing() {
    let mut measures = Measures::default();
    let courses = lines(3, 1_500, Kind::Courses, Size::Short);
    for line in courses
        .into_iter()
        .chain(lines(3, 500, Kind::Undo, Size::Short))
        .chain(lines(3, 200, Kind::Marking, Size::Short))
    {
        let answer = called(&line).expect("a run or mark line");
        measures.count(answer.steps, &answer.counts);
    }
    assert!(
        !measures.show().contains(": 0, in 0 runs"),
        "{}",
        measures.show()
    );
}
