//! Runs the `run`, `mark` and `class` lines of the cases on standard input and says how they ended and what the runs came across: steps, calls, errors, loops; and how listings were marked.

use std::io::{self, BufRead};

use reference::class::{class_answer, class_of, show_class_answer};
use reference::class_counts::ClassMeasures;
use reference::counts::Measures;
use reference::lines::{called, show_answer};
use reference::tally::Tally;

fn main() -> io::Result<()> {
    let mut tally = Tally::default();
    let mut measures = Measures::default();
    let mut classes = ClassMeasures::default();
    for line in io::stdin().lock().lines() {
        let line = line?;
        if let Some(lent) = class_of(&line) {
            let answer = class_answer(&lent);
            tally.count(&show_class_answer(&answer));
            classes.count(&lent, &answer);
            for module in answer.modules.iter().filter(|module| module.ending > 0) {
                measures.count(module.steps, &module.counts);
            }
            continue;
        }
        let Some(answer) = called(&line) else {
            continue;
        };
        tally.count(&show_answer(&answer));
        if answer.ending > 0 {
            measures.count(answer.steps, &answer.counts);
        }
    }
    print!("{}{}{}", tally.show(), measures.show(), classes.show());
    Ok(())
}
