//! An automaton that reads the products of a list, of one factor or more: one loop at a hub for each generator, closed under the rules.

/// A set of states, by their bits.
type States = u64;

/// The state where each factor ends and the next begins, and the one where the first begins.
const HUB: usize = 0;
const START: usize = 1;

/// The moves from state to state.
pub struct Automaton {
    /// For each state where R leads from it, and where S does.
    letters: [Vec<States>; 2],
    /// For each state where letters that vanish lead from it, or none at all.
    empty: Vec<States>,
}

/// The states of a set.
fn members(mut states: States) -> impl Iterator<Item = usize> {
    std::iter::from_fn(move || {
        let first = (states != 0).then(|| states.trailing_zeros() as usize)?;
        states &= states - 1;
        Some(first)
    })
}

impl Automaton {
    /// The loops spell the generators' letters as they are given. The start has the hub's moves, and none leads to it; an empty generator is an empty move from
    /// it to the hub. Wherever RR or SSS can be read from p to q, with empty moves anywhere, there is an empty move from p to q: it stands for letters that
    /// vanish. So a word that is read from the start to the hub equals a product of one factor or more; and a product's letters can still be read after each RR
    /// and each SSS that is erased from them, down to their normal form.
    pub fn new(generators: &[&[u8]]) -> Automaton {
        let inner = generators.iter().map(|word| word.len().saturating_sub(1));
        let states = 2 + inner.sum::<usize>();
        assert!(states <= States::BITS as usize, "{states} states");
        let mut automaton = Automaton {
            letters: [(); 2].map(|()| vec![0; states]),
            empty: (0..states).map(|state| 1 << state).collect(),
        };
        let mut unused = 2;
        for generator in generators {
            unused = automaton.add_loop(generator, unused);
        }
        for moves in &mut automaton.letters {
            moves[START] = moves[HUB];
        }
        if generators.iter().any(|word| word.is_empty()) {
            automaton.empty[START] |= 1 << HUB;
        }
        while automaton.add_empty_moves() {}
        automaton
    }

    /// The loop of a generator, with inner states from `unused` on. The answer is the first state behind them.
    fn add_loop(&mut self, generator: &[u8], mut unused: usize) -> usize {
        let mut here = HUB;
        for place in 1..=generator.len() {
            let there = if place < generator.len() { unused } else { HUB };
            self.letters[number(generator[place - 1])][here] |= 1 << there;
            if there != HUB {
                unused += 1;
            }
            here = there;
        }
        unused
    }

    /// Where the empty moves so far lead from these states.
    fn onward(&self, states: States) -> States {
        members(states).fold(0, |all, state| all | self.empty[state])
    }

    /// Where the word leads from these states, with the empty moves so far before each of its letters and behind the last.
    fn read(&self, states: States, word: &[u8]) -> States {
        word.iter().fold(self.onward(states), |here, &letter| {
            let moves = &self.letters[number(letter)];
            self.onward(members(here).fold(0, |all, state| all | moves[state]))
        })
    }

    /// One round through the states. The answer is whether there is a new move.
    fn add_empty_moves(&mut self) -> bool {
        let mut added = false;
        for state in (0..self.empty.len()).rev() {
            let before = self.empty[state];
            for vanishing in ["", "RR", "SSS"] {
                self.empty[state] |= self.read(self.empty[state], vanishing.as_bytes());
            }
            added |= self.empty[state] != before;
        }
        added
    }

    /// Whether the word of a normal form is a product of the generators.
    pub fn reads(&self, form: &[u8]) -> bool {
        self.read(1 << START, form) & (1 << HUB) != 0
    }
}

/// 0 for R, and 1 for S.
fn number(letter: u8) -> usize {
    match letter {
        b'R' => 0,
        b'S' => 1,
        other => panic!("{other} is no letter"),
    }
}
