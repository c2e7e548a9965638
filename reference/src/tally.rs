//! How often each refusal and each ending occurs.

const ENDINGS: usize = 11;
const REFUSALS: usize = 20;
/// What a class can be refused for; 0 where it is not.
const OF_CLASSES: [u32; 6] = [0, 1, 2, 20, 21, 27];

#[derive(Default)]
pub struct Tally {
    endings: [u64; ENDINGS],
    /// Index 0 is unused: refusal 0 is none.
    refusals: [u64; REFUSALS],
    classes: [u64; OF_CLASSES.len()],
}

impl Tally {
    /// Counts an answer line; lines of other cases are passed over.
    pub fn count(&mut self, line: &str) {
        let Some((ending, refusal)) = ending_and_refusal(line) else {
            return self.count_class(line);
        };
        self.endings[ending] += 1;
        if refusal > 0 {
            self.refusals[refusal] += 1;
        }
    }

    /// A class: its refusal, and its modules one by one. No listing or covered part is such
    /// a number.
    fn count_class(&mut self, line: &str) {
        let mut parts = line.split(" | ");
        let refusal = parts.next().unwrap_or("");
        let index = OF_CLASSES.iter().position(|n| n.to_string() == refusal);
        let Some(index) = index else {
            return;
        };
        self.classes[index] += 1;
        for module in parts {
            self.count(module);
        }
    }

    pub fn show(&self) -> String {
        let mut shown = String::new();
        let mut missing = Vec::new();
        let refusals = (1..REFUSALS).map(|number| ("refusal", number, self.refusals[number]));
        let endings = (0..ENDINGS).map(|number| ("ending", number, self.endings[number]));
        let classes = OF_CLASSES.iter().zip(self.classes);
        let classes = classes.map(|(number, times)| ("class refusal", *number as usize, times));
        let has_classes = self.classes.iter().any(|times| *times > 0);
        let classes = classes.filter(|_| has_classes);
        for (what, number, times) in refusals.chain(endings).chain(classes) {
            shown += &format!("{what} {number}: {times}\n");
            if times == 0 {
                missing.push(format!("{what} {number}"));
            }
        }
        if missing.is_empty() {
            return shown + "none missing\n";
        }
        shown + &format!("missing: {}\n", missing.join(", "))
    }
}

/// What the answer lines of `run` and `mark` have.
const FIELDS: [usize; 2] = [10, 12];

/// The first two fields of a record, if the line is the answer of a `run` or `mark` case.
fn ending_and_refusal(line: &str) -> Option<(usize, usize)> {
    let fields: Vec<&str> = line.split(' ').collect();
    if !FIELDS.contains(&fields.len()) {
        return None;
    }
    let ending = fields[0].parse().ok().filter(|ending| *ending < ENDINGS)?;
    let refusal = fields[1]
        .parse()
        .ok()
        .filter(|refusal| *refusal < REFUSALS)?;
    Some((ending, refusal))
}
