//! A counter of the classes of differences.
use std::collections::BTreeMap;

/// Counts the comparisons of each class, and keeps a short example of each class.
#[derive(Default)]
pub struct Tally {
    classes: BTreeMap<String, (usize, String, String)>,
}

impl Tally {
    pub fn count(&mut self, class: &str, input: &str, told: &str) {
        match self.classes.get_mut(class) {
            None => {
                self.classes.insert(class.to_string(), (1, input.to_string(), told.to_string()));
            }
            Some((count, shortest, why)) => {
                *count += 1;
                if input.len() < shortest.len() {
                    *shortest = input.to_string();
                    *why = told.to_string();
                }
            }
        }
    }

    /// Prints each class with its count, and adds an example to each unlisted class. Returns `true`
    /// if all classes are listed.
    pub fn print(&self) -> bool {
        let mut all_listed = true;
        for (class, (count, input, told)) in &self.classes {
            println!("{count:9} {class}");
            if class.contains("UNLISTED") {
                all_listed = false;
                println!("    {input:?}\n    {told}");
            }
        }
        all_listed
    }
}
