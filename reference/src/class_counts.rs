//! What classes are like, counted: whether generated ones have what request 7 speaks of.

use crate::bench::{refused_rooms, Answer};
use crate::class::{ClassAnswer, ClassLent, DATA_BYTES, MOST_MODULES, RECORD_BYTES};

const NAMES: [&str; 15] = [
    "class answered",
    "class without modules",
    "class of 64 modules",
    "class whose share drops a fraction",
    "class in which some modules are refused and others not",
    "class in which one module lacks room and another writes",
    "class in which a module has less data than the one before, but some",
    "class in which several modules take inputs",
    "class with a part word behind the lengths",
    "class with longer lists than it needs",
    "module of a class",
    "module of no bytes",
    "module refused by its own 3",
    "class refused",
    "class refused for which a later number would do too",
];

#[derive(Default)]
pub struct ClassMeasures([u64; NAMES.len()]);

impl ClassMeasures {
    pub fn count(&mut self, lent: &ClassLent, answer: &ClassAnswer) {
        for (sum, times) in self.0.iter_mut().zip(features(lent, answer)) {
            *sum += times;
        }
    }

    pub fn show(&self) -> String {
        let lines = NAMES.iter().zip(self.0);
        lines
            .map(|(name, times)| format!("{name}: {times}\n"))
            .collect()
    }
}

fn features(lent: &ClassLent, answer: &ClassAnswer) -> [u64; NAMES.len()] {
    let modules = &answer.modules;
    let answered = answer.refusal == 0;
    let count = modules.len();
    let with = |has: fn(&Answer) -> bool| modules.iter().filter(|m| has(m)).count();
    let refused = with(|module| module.ending == 0);
    let less_data = modules
        .windows(2)
        .any(|pair| 0 < pair[1].words.len() && pair[1].words.len() < pair[0].words.len());
    let lacking = with(|module| module.ending == 8);
    let lists = [RECORD_BYTES, DATA_BYTES].map(|bytes| bytes * count as u64);
    let longer = lent.records_room > lists[0] || lent.data_room > lists[1];
    let lengths = lent.module_lengths();
    let later = match answer.refusal {
        1 => refused_rooms(u64::MAX, u64::MAX, lent.depth).is_some() || lent.sum_differs(),
        2 => lent.sum_differs() || lent.too_many() || lent.list_too_short(),
        20 => lent.too_many() || lent.list_too_short(),
        21 => lent.list_too_short(),
        _ => false,
    };
    let in_class = |holds: bool| u64::from(answered && holds);
    [
        in_class(true),
        in_class(count == 0),
        in_class(count == MOST_MODULES),
        in_class(count > 0 && lent.output_room % count as u64 > 0),
        in_class(0 < refused && refused < count),
        in_class(lacking > 0 && with(|module| module.ending != 8 && !module.output.is_empty()) > 0),
        in_class(less_data),
        in_class(with(|module| module.inputs_used > 0) > 1),
        in_class(lent.lengths.len() % 4 > 0),
        in_class(longer),
        count as u64,
        in_class(true) * lengths.iter().filter(|length| **length == 0).count() as u64,
        with(|module| module.refusal == 3) as u64,
        u64::from(!answered),
        u64::from(later),
    ]
}
