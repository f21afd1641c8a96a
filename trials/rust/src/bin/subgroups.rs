//! Small lists taken as subgroups, exhaustively: every generator of up to 6 letters, every 2 of up to 4 and every 3 of up to 2, with every target of up
//! to 6 letters and every bound up to 4. The library's verdict, its factors and what it does to the lent slices are held to a walk of the group by matrices,
//! with their inverses, which keeps the first of each element's least series; and for every list the letters of the factor of each number, after a verdict,
//! to its words and to their inverses, reduced by erasing. The quick answer, which looks at no inverses, is held to the images of all products modulo 7, and is
//! never a no where the walk has a series. Prints what was tried, and `0 differ`; where something differs it prints the first of them and exits with 1.

use kernelhop::lent::{judge_subgroup, letters_of, quick_no, Judged};
use kernelhop_trials::{
    erasing::{inverse, normal_form},
    lending::{begins_with, bytes, Tables},
    listing::{lists, List, Word},
    residues::{images, Residue},
    walk::{first_signed_series, INVERSE},
    words::up_to,
};

/// How many generators, and the letters that each may have.
const LISTS: [(usize, usize); 4] = [(0, 0), (1, 6), (2, 4), (3, 2)];
const TARGET: usize = 6;
const BOUND: u16 = 4;

/// The bytes that an inverse slice must have.
const INVERSES: usize = 640;

/// A list, and the normal forms of its generators' inverses.
struct Subgroup<'a> {
    list: List<'a>,
    inverses: Vec<Vec<u8>>,
}

impl<'a> Subgroup<'a> {
    fn new(generators: &'a [&'a Word]) -> Subgroup<'a> {
        let inverses = generators
            .iter()
            .map(|word| normal_form(&inverse(&word.letters)));
        Subgroup {
            inverses: inverses.collect(),
            list: List::new(generators),
        }
    }

    fn tables_for(&self, target: &Word) -> Tables {
        let forms = self.list.generators.iter().map(|word| &word.form);
        let letters = forms.chain(&self.inverses).map(Vec::len);
        Tables::new(letters.sum(), target.form.len())
    }

    /// Whether the library's answer is right, where `first` is the first of the least series up to the bound. The inverse slice is left as it was written.
    fn is_right(&self, target: &Word, n: u16, first: Option<&[u8]>, lent: &mut Vec<u8>) -> bool {
        let mut tables = self.tables_for(target);
        let [one, other] = &mut tables.lent;
        let mut witness = bytes(usize::from(n));
        *lent = bytes(INVERSES);
        let answer = judge_subgroup(
            &self.list.bytes,
            &self.list.ends,
            &target.letters,
            n,
            one,
            other,
            &mut witness,
            lent,
        );
        let expected = match first {
            Some(series) => Judged::Member {
                count: series.len(),
            },
            None => Judged::None { n },
        };
        answer == Ok(expected)
            && begins_with(&witness, first.unwrap_or(&[]))
            && begins_with(lent, &self.inverses.concat())
            && tables.are_zeroed()
    }

    /// The word of each factor, by its number; nothing for a number that is no factor's.
    fn word(&self, number: u8) -> &[u8] {
        let generator = usize::from(number % INVERSE);
        if number < INVERSE {
            let given = self.list.generators.get(generator);
            given.map_or(&[], |word| &word.letters)
        } else {
            self.inverses.get(generator).map_or(&[], Vec::as_slice)
        }
    }

    /// Whether the letters of the factor of each number are right, with an inverse slice that a verdict wrote.
    fn letters_are_right(&self, written: &[u8]) -> bool {
        (0..=u8::MAX).all(|number| {
            let letters = letters_of(&self.list.bytes, &self.list.ends, written, number);
            letters == self.word(number)
        })
    }
}

#[derive(Default)]
struct Tried {
    lists: usize,
    /// The calls whose target is a member, by the least number of factors, from 1 on; and those of them whose target is empty or vanishes.
    members: [usize; BOUND as usize],
    relations: usize,
    none: usize,
    /// The members that have an inverse among their factors.
    signed: usize,
    /// The quick answers, by open and no.
    quick: [usize; 2],
    differ: usize,
}

impl Tried {
    fn list(&mut self, generators: &[&Word], targets: &[Word]) {
        let subgroup = Subgroup::new(generators);
        let found = first_signed_series(&subgroup.list.elements(), usize::from(BOUND));
        let images = images(&subgroup.list.elements());
        let mut lent = Vec::new();
        for target in targets {
            let first = found.get(&target.element).map(Vec::as_slice);
            let no = !images.contains(&Residue::of(target.element));
            self.at_once(&subgroup.list, target, no, first);
            for n in 0..=BOUND {
                let first = first.filter(|series| series.len() <= usize::from(n));
                match first {
                    Some(series) => {
                        self.members[series.len() - 1] += 1;
                        self.relations += usize::from(target.form.is_empty());
                        self.signed += usize::from(series.iter().any(|&factor| factor >= INVERSE));
                    }
                    None => self.none += 1,
                }
                if !subgroup.is_right(target, n, first, &mut lent) {
                    let what = format!("n {n}; the walk has {first:?}");
                    self.differs(&subgroup.list, target, &what);
                }
            }
            if !subgroup.letters_are_right(&lent) {
                self.differs(&subgroup.list, target, "the letters of a factor");
            }
        }
        self.lists += 1;
    }

    /// What the images say must be right of the library; and where the walk has a series, they must not say no.
    fn at_once(&mut self, list: &List, target: &Word, no: bool, first: Option<&[u8]>) {
        self.quick[usize::from(no)] += 1;
        let answer = quick_no(&list.bytes, &list.ends, &target.letters);
        if answer != Ok(no) || (no && first.is_some()) {
            let what = format!(
                "the quick answer is {answer:?}; by the images {no}, and the walk has {first:?}"
            );
            self.differs(list, target, &what);
        }
    }

    /// Prints the first ten.
    fn differs(&mut self, list: &List, target: &Word, what: &str) {
        self.differ += 1;
        if self.differ <= 10 {
            list.report(target, what);
        }
    }

    fn print(&self, (generators, letters): (usize, usize), targets: usize) {
        let calls = self.none + self.members.iter().sum::<usize>();
        let [open, no] = self.quick;
        println!(
            "subgroups of {generators} generators of up to {letters} letters: {} tried, with {targets} targets and {} bounds each; {calls} calls, {} none, \
             members by count from 1 {:?}, {} of them relations, {} with an inverse; at once {} calls, {no} quick no, {open} open; {} differ",
            self.lists,
            BOUND + 1,
            self.none,
            self.members,
            self.relations,
            self.signed,
            no + open,
            self.differ
        );
    }
}

fn main() {
    let targets: Vec<_> = up_to(TARGET).into_iter().map(Word::new).collect();
    let mut differ = 0;
    for (count, letters) in LISTS {
        let generators: Vec<_> = up_to(letters).into_iter().map(Word::new).collect();
        let mut tried = Tried::default();
        for list in lists(count, &generators) {
            tried.list(&list, &targets);
        }
        tried.print((count, letters), targets.len());
        differ += tried.differ;
    }
    println!("{differ} differ");
    if differ > 0 {
        std::process::exit(1);
    }
}
