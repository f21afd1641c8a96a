//! Small lists, as the library takes them.

use crate::{element::Element, erasing::normal_form};

pub struct Word {
    pub letters: Vec<u8>,
    pub element: Element,
    /// Its normal form.
    pub form: Vec<u8>,
}

impl Word {
    pub fn new(letters: Vec<u8>) -> Word {
        Word {
            element: Element::of_word(&letters),
            form: normal_form(&letters),
            letters,
        }
    }
}

/// A list, with its letters and ends as the library takes them.
pub struct List<'a> {
    pub generators: &'a [&'a Word],
    pub bytes: Vec<u8>,
    pub ends: Vec<u16>,
}

impl<'a> List<'a> {
    pub fn new(generators: &'a [&'a Word]) -> List<'a> {
        let mut bytes = Vec::new();
        let mut ends = Vec::new();
        for generator in generators {
            bytes.extend(&generator.letters);
            ends.push(bytes.len() as u16);
        }
        List {
            generators,
            bytes,
            ends,
        }
    }

    pub fn elements(&self) -> Vec<Element> {
        self.generators.iter().map(|word| word.element).collect()
    }

    /// Says that a call on it with this target differs.
    pub fn report(&self, target: &Word, what: &str) {
        let text = |word: &[u8]| String::from_utf8_lossy(word).into_owned();
        println!(
            "differs: letters {}, ends {:?}, target {}, {what}",
            text(&self.bytes),
            self.ends,
            text(&target.letters)
        );
    }
}

/// Every list of so many of the words.
pub fn lists(count: usize, words: &[Word]) -> Vec<Vec<&Word>> {
    let mut lists = vec![Vec::new()];
    for _ in 0..count {
        lists = lists
            .iter()
            .flat_map(|list| words.iter().map(|word| [list.as_slice(), &[word]].concat()))
            .collect();
    }
    lists
}
