//! Small lists, exhaustively: every list of up to 3 generators of up to 3 letters, every target of up to 6 letters and every bound up to 5. The library's
//! verdict, its factors and what it does to the lent slices are held to a walk of the group by matrices, which keeps the first of each element's least series:
//! the factors have to be just these. Every list is asked for every target without a bound too, and held to an automaton that reads all products; and for the
//! quick answer, which is held to the images of all products modulo 7, and is never a no where the automaton or the walk has a product. Prints what was tried,
//! and `0 differ`; where something differs it prints the first of them and exits with 1.

use kernelhop::lent::{judge, quick_no, reachable, Judged};
use kernelhop_trials::{
    automaton::Automaton,
    lending::{begins_with, bytes, Tables},
    listing::{lists, List, Word},
    residues::{images, Residue},
    walk::first_series,
    words::up_to,
};

const GENERATORS: usize = 3;
const LETTERS: usize = 3;
const TARGET: usize = 6;
const BOUND: u16 = 5;

fn automaton_of(list: &List) -> Automaton {
    let words = list.generators.iter().map(|word| word.letters.as_slice());
    Automaton::new(&words.collect::<Vec<_>>())
}

fn tables_for(list: &List, target: &Word) -> Tables {
    let forms = list.generators.iter().map(|word| word.form.len());
    Tables::new(forms.sum(), target.form.len())
}

/// Whether the library's answer is right, where `first` is the first of the least series up to the bound.
fn is_right(list: &List, target: &Word, n: u16, first: Option<&[u8]>) -> bool {
    let mut tables = tables_for(list, target);
    let [one, other] = &mut tables.lent;
    let mut witness = bytes(usize::from(n));
    let answer = judge(
        &list.bytes,
        &list.ends,
        &target.letters,
        n,
        one,
        other,
        &mut witness,
    );
    let expected = match first {
        Some(series) => Judged::Member {
            count: series.len(),
        },
        None => Judged::None { n },
    };
    answer == Ok(expected) && begins_with(&witness, first.unwrap_or(&[])) && tables.are_zeroed()
}

/// Whether the library's answer without a bound is right.
fn is_right_without_a_bound(list: &List, target: &Word, expected: bool) -> bool {
    let mut tables = tables_for(list, target);
    let [one, other] = &mut tables.lent;
    let answer = reachable(&list.bytes, &list.ends, &target.letters, one, other);
    answer == Ok(expected) && tables.are_zeroed()
}

#[derive(Default)]
struct Tried {
    lists: usize,
    /// The calls whose target is a member, by the least number of factors, from 1 on; and those of them whose target is empty or vanishes.
    members: [usize; BOUND as usize],
    relations: usize,
    none: usize,
    /// The calls without a bound, by no and yes.
    unbounded: [usize; 2],
    /// The quick answers, by open and no.
    quick: [usize; 2],
    differ: usize,
}

impl Tried {
    fn list(&mut self, generators: &[&Word], targets: &[Word]) {
        let list = List::new(generators);
        let found = first_series(&list.elements(), usize::from(BOUND));
        let automaton = automaton_of(&list);
        let images = images(&list.elements());
        for target in targets {
            let first = found.get(&target.element).map(Vec::as_slice);
            let yes = automaton.reads(&target.form);
            self.without_a_bound(&list, target, yes, first);
            let no = !images.contains(&Residue::of(target.element));
            self.at_once(&list, target, no, yes || first.is_some());
            for n in 0..=BOUND {
                let first = first.filter(|series| series.len() <= usize::from(n));
                match first {
                    Some(series) => {
                        self.members[series.len() - 1] += 1;
                        self.relations += usize::from(target.form.is_empty());
                    }
                    None => self.none += 1,
                }
                if !is_right(&list, target, n, first) {
                    self.differs(&list, target, &format!("n {n}; the walk has {first:?}"));
                }
            }
        }
        self.lists += 1;
    }

    /// What the automaton says must be right of the library, and of the series that the walk has.
    fn without_a_bound(&mut self, list: &List, target: &Word, yes: bool, first: Option<&[u8]>) {
        self.unbounded[usize::from(yes)] += 1;
        if !is_right_without_a_bound(list, target, yes) || (first.is_some() && !yes) {
            let answer =
                format!("without a bound; the automaton says {yes}, and the walk has {first:?}");
            self.differs(list, target, &answer);
        }
    }

    /// What the images say must be right of the library; and where the target is a product, they must not say no.
    fn at_once(&mut self, list: &List, target: &Word, no: bool, is_product: bool) {
        self.quick[usize::from(no)] += 1;
        let answer = quick_no(&list.bytes, &list.ends, &target.letters);
        if answer != Ok(no) || (no && is_product) {
            let what = format!("the quick answer is {answer:?}; by the images {no}, and is the target a product: {is_product}");
            self.differs(list, target, &what);
        }
    }

    /// Prints the first ten.
    fn differs(&mut self, list: &List, target: &Word, what: &str) {
        self.differ += 1;
        if self.differ <= 10 {
            list.report(target, what);
        }
    }

    fn print(&self, generators: usize, targets: usize) {
        let calls = self.none + self.members.iter().sum::<usize>();
        let [no, yes] = self.unbounded;
        let [open, quick_no] = self.quick;
        println!(
            "lists of {generators}: {} tried, with {targets} targets and {} bounds each; {calls} calls, {} none, members by count from 1 {:?}, \
             {} of them relations; without a bound {} calls, {no} no, {yes} yes; at once {} calls, {quick_no} quick no, {open} open; {} differ",
            self.lists,
            BOUND + 1,
            self.none,
            self.members,
            self.relations,
            no + yes,
            quick_no + open,
            self.differ
        );
    }
}

fn main() {
    let generators: Vec<_> = up_to(LETTERS).into_iter().map(Word::new).collect();
    let targets: Vec<_> = up_to(TARGET).into_iter().map(Word::new).collect();
    let mut differ = 0;
    for count in 0..=GENERATORS {
        let mut tried = Tried::default();
        for list in lists(count, &generators) {
            tried.list(&list, &targets);
        }
        tried.print(count, targets.len());
        differ += tried.differ;
    }
    println!("{differ} differ");
    if differ > 0 {
        std::process::exit(1);
    }
}
