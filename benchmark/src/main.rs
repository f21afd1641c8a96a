//! Measures the proved verdict against the same method in plain Rust, in one process: both get the same calls in turn, and must give the same verdict and
//! write the same factors. The verdict without a bound is measured in the same way, and beside the one with a bound; so is the signed one, which takes a list
//! as a subgroup, beside the unsigned one on the same list and on the list with its inverses typed; and the quick answer, beside the verdict that it spares.
//!
//!     kernelhop_benchmark agree             only holds the one to the other, on 20,000 small calls, and both to a walk of the group and to all products
//!                                           modulo 7
//!     kernelhop_benchmark ratios            the ratios on the largest calls, a line for each kind: with a bound, without, signed, and the quick answer
//!     kernelhop_benchmark PLOT FILE..       all tables in Markdown, and the plot: both of these and a walk of the group. Each file holds what `ratios` printed
//!                                           where the functions were moved

mod plot;
mod reference;

use kernelhop::lent::{judge, judge_subgroup, quick_no, reachable, Judged, INVERSE, INVERSES};
use kernelhop_trials::{
    element::Element,
    erasing::{inverse, normal_form},
    residues::{images, Residue},
    walk::{first_series, first_signed_series},
};
use reference::{Refusal, Verdict};

fn numbered(refusal: kernelhop::Refusal) -> Refusal {
    (refusal.number(), refusal.place())
}

fn verdict(answer: Result<Judged, kernelhop::Refusal>) -> Result<Verdict, Refusal> {
    match answer {
        Ok(Judged::Member { count }) => Ok(Verdict::Member(count as u16)),
        Ok(Judged::None { .. }) => Ok(Verdict::None),
        Err(refusal) => Err(numbered(refusal)),
    }
}

fn proved(call: &Call, lent: &mut Lent) -> Result<Verdict, Refusal> {
    verdict(judge(
        &call.bytes,
        &call.ends,
        &call.target,
        call.n,
        &mut lent.first,
        &mut lent.second,
        &mut lent.witness,
    ))
}

fn plain(call: &Call, lent: &mut Lent) -> Result<Verdict, Refusal> {
    reference::judge(
        &call.bytes,
        &call.ends,
        &call.target,
        call.n,
        &mut lent.first,
        &mut lent.second,
        Some(&mut lent.witness),
    )
}

/// Plain Rust without the witness: list, tree, tables and zeroing, and what stands at the end of the last row.
fn counted(call: &Call, lent: &mut Lent) -> Result<Verdict, Refusal> {
    reference::judge(
        &call.bytes,
        &call.ends,
        &call.target,
        call.n,
        &mut lent.first,
        &mut lent.second,
        None,
    )
}

/// The verdict without a bound: whatever n is, and without the witness.
fn proved_unbounded(call: &Call, lent: &mut Lent) -> Result<bool, Refusal> {
    let answer = reachable(
        &call.bytes,
        &call.ends,
        &call.target,
        &mut lent.first,
        &mut lent.second,
    );
    answer.map_err(numbered)
}

fn plain_unbounded(call: &Call, lent: &mut Lent) -> Result<bool, Refusal> {
    reference::reachable(
        &call.bytes,
        &call.ends,
        &call.target,
        &mut lent.first,
        &mut lent.second,
    )
}

/// The signed verdict: a factor is a generator or the inverse of one.
fn proved_signed(call: &Call, lent: &mut Lent) -> Result<Verdict, Refusal> {
    verdict(judge_subgroup(
        &call.bytes,
        &call.ends,
        &call.target,
        call.n,
        &mut lent.first,
        &mut lent.second,
        &mut lent.witness,
        &mut lent.inverses,
    ))
}

fn plain_signed(call: &Call, lent: &mut Lent) -> Result<Verdict, Refusal> {
    reference::judge_signed(
        &call.bytes,
        &call.ends,
        &call.target,
        call.n,
        &mut lent.first,
        &mut lent.second,
        &mut lent.witness,
        &mut lent.inverses,
    )
}

/// The signed verdict on the first half of a list whose second half are the inverses of these, typed.
fn proved_half(call: &Call, lent: &mut Lent) -> Result<Verdict, Refusal> {
    let half = call.ends.len() / 2;
    verdict(judge_subgroup(
        &call.bytes[..call.start(half)],
        &call.ends[..half],
        &call.target,
        call.n,
        &mut lent.first,
        &mut lent.second,
        &mut lent.witness,
        &mut lent.inverses,
    ))
}

/// The quick answer: whatever n is, and nothing is lent. True is the no.
fn proved_quick(call: &Call, _: &mut Lent) -> Result<bool, Refusal> {
    quick_no(&call.bytes, &call.ends, &call.target).map_err(numbered)
}

fn plain_quick(call: &Call, _: &mut Lent) -> Result<bool, Refusal> {
    reference::quick_no(&call.bytes, &call.ends, &call.target)
}

/// One of the ten above.
type Run<T> = fn(&Call, &mut Lent) -> Result<T, Refusal>;

/// What is measured: a proved verdict, and the other beside it.
type Both<A, B> = (Run<A>, Run<B>);

const BOUNDED: Both<Verdict, Verdict> = (proved, plain);
const UNBOUNDED: Both<bool, bool> = (proved_unbounded, plain_unbounded);
const SIGNED: Both<Verdict, Verdict> = (proved_signed, plain_signed);
const QUICK: Both<bool, bool> = (proved_quick, plain_quick);
const OVER_COUNTING: Both<Verdict, Verdict> = (proved, counted);
/// They share the code of the rules, and are measured in the same rounds all the same: a ratio of two measurements would move with the machine. So it is with
/// the next two, which share more.
const OVER_BOUNDED: Both<bool, Verdict> = (proved_unbounded, proved);
const OVER_UNSIGNED: Both<Verdict, Verdict> = (proved_signed, proved);
/// On a list with its inverses typed.
const OVER_TYPED: Both<Verdict, Verdict> = (proved_half, proved);
/// They share the questions and the reductions.
const BOUNDED_OVER_QUICK: Both<Verdict, bool> = (proved, proved_quick);

/// A list, a target and a bound.
#[derive(Clone)]
struct Call {
    bytes: Vec<u8>,
    ends: Vec<u16>,
    target: Vec<u8>,
    n: u16,
}

/// What a caller lends.
#[derive(Clone, PartialEq)]
struct Lent {
    first: Vec<u16>,
    second: Vec<u16>,
    witness: Vec<u8>,
    inverses: Vec<u8>,
}

impl Lent {
    fn new(table: usize, witness: usize) -> Lent {
        Lent {
            first: vec![65535; table],
            second: vec![65535; table],
            witness: vec![255; witness],
            inverses: vec![255; INVERSES],
        }
    }
}

/// Marsaglia's xorshift of 64 bits, from a fixed seed.
struct Random(u64);

impl Random {
    fn next(&mut self) -> u64 {
        self.0 ^= self.0 << 13;
        self.0 ^= self.0 >> 7;
        self.0 ^= self.0 << 17;
        self.0
    }

    fn below(&mut self, bound: usize) -> usize {
        ((self.next() >> 11) % bound as u64) as usize
    }

    fn letter(&mut self) -> u8 {
        if self.below(2) == 0 {
            b'R'
        } else {
            b'S'
        }
    }

    /// A word of that length in normal form.
    fn normal_word(&mut self, len: usize) -> Vec<u8> {
        let mut word = Vec::new();
        while word.len() < len {
            word.push(match word[..] {
                [.., b'R'] => b'S',
                [.., b'S', b'S'] => b'R',
                _ => self.letter(),
            });
        }
        word
    }

    /// A word of at most that length, reduced or not.
    fn any_word(&mut self, most: usize) -> Vec<u8> {
        (0..self.below(most + 1)).map(|_| self.letter()).collect()
    }
}

fn call_of(generators: &[Vec<u8>], target: Vec<u8>, n: u16) -> Call {
    let ends = generators.iter().scan(0, |end, generator| {
        *end += generator.len() as u16;
        Some(*end)
    });
    Call {
        bytes: generators.concat(),
        ends: ends.collect(),
        target,
        n,
    }
}

/// Lists of so many generators of so many letters, each with a target of t.
fn random_calls(generators: usize, letters: usize, t: usize, n: u16) -> impl Iterator<Item = Call> {
    let mut random = Random(0x6b65726e656c);
    std::iter::repeat_with(move || {
        let list: Vec<_> = (0..generators)
            .map(|_| random.normal_word(letters))
            .collect();
        call_of(&list, random.normal_word(t), n)
    })
}

fn large_calls(lists: usize, generators: usize, letters: usize, n: u16) -> Vec<Call> {
    let calls = random_calls(generators, letters, 80, n);
    calls.take(lists).collect()
}

/// Up to 4 generators of up to 7 letters, a target of up to 12, and n up to 9. Five calls in 32 have an end, a letter, a witness, a table or an inverse slice
/// that may be refused.
fn small_call(random: &mut Random) -> (Call, Lent) {
    let list: Vec<_> = (0..random.below(5)).map(|_| random.any_word(7)).collect();
    let target = random.any_word(12);
    let mut call = call_of(&list, target, random.below(10) as u16);
    let mut lent = Lent::new(100 * 100, 9);
    match random.below(32) {
        0 => call.bytes.push(b'R'),
        1 => call.target.push(b'r'),
        2 => lent.witness.truncate(4),
        3 => lent.second.truncate(200),
        4 => lent.inverses.truncate(INVERSES - 1),
        _ => {}
    }
    (call, lent)
}

impl Call {
    /// Where generator j begins.
    fn start(&self, j: usize) -> usize {
        if j == 0 {
            0
        } else {
            self.ends[j - 1] as usize
        }
    }

    fn generator(&self, j: usize) -> &[u8] {
        &self.bytes[self.start(j)..self.ends[j] as usize]
    }

    /// The same call with the inverses of the list's generators typed behind them.
    fn typed(&self) -> Call {
        let generators = (0..self.ends.len()).map(|j| self.generator(j));
        let inverses = generators.clone().map(|word| normal_form(&inverse(word)));
        let list: Vec<_> = generators.map(<[u8]>::to_vec).chain(inverses).collect();
        call_of(&list, self.target.clone(), self.n)
    }

    /// Whether questions 7 and 11 let that list pass. The generators are in normal form.
    fn can_be_typed(&self) -> bool {
        let typed = self.typed();
        let count = typed.ends.len();
        count <= 64
            && typed.bytes.len() <= 320
            && (0..count).all(|j| typed.generator(j).len() <= 80)
    }

    /// The signed numbers of factors of the list with its inverses typed.
    fn signed(&self, factors: &[u8]) -> Vec<u8> {
        let generators = self.ends.len() as u8;
        let number = |&j: &u8| match j {
            j if j < generators => j,
            j => INVERSE + (j - generators),
        };
        factors.iter().map(number).collect()
    }

    /// Whether the factors, by their numbers or their signed ones, multiply to the target.
    fn reached_by(&self, factors: &[u8]) -> bool {
        let factor = |j: u8| match j {
            j if j < INVERSE => self.generator(usize::from(j)).to_vec(),
            j => inverse(self.generator(usize::from(j - INVERSE))),
        };
        let product = factors.iter().fold(Vec::new(), |product: Vec<u8>, &j| {
            normal_form(&[product, factor(j)].concat())
        });
        product == normal_form(&self.target)
    }

    fn elements(&self) -> Vec<Element> {
        let generators = (0..self.ends.len()).map(|j| self.generator(j));
        generators.map(Element::of_word).collect()
    }

    /// The first of the least series that a walk of the group finds.
    fn walked(&self) -> Option<Vec<u8>> {
        let mut found = first_series(&self.elements(), usize::from(self.n));
        found.remove(&Element::of_word(&self.target))
    }

    /// The same where a factor may be an inverse.
    fn walked_signed(&self) -> Option<Vec<u8>> {
        let mut found = first_signed_series(&self.elements(), usize::from(self.n));
        found.remove(&Element::of_word(&self.target))
    }

    /// Whether the target is none of the products modulo 7, all of which are made.
    fn fails_modulo_7(&self) -> bool {
        !images(&self.elements()).contains(&Residue::of(Element::of_word(&self.target)))
    }
}

/// A verdict or a refusal, and a member's factors.
#[derive(Debug, PartialEq)]
struct Answer {
    verdict: Result<Verdict, Refusal>,
    factors: Vec<u8>,
}

impl Answer {
    /// Asserts that a walk of the group found the same.
    fn must_be(&self, series: Option<Vec<u8>>) {
        match series {
            Some(series) => {
                assert_eq!(self.verdict, Ok(Verdict::Member(series.len() as u16)));
                assert_eq!(self.factors, series);
            }
            None => assert_eq!(self.verdict, Ok(Verdict::None)),
        }
    }
}

/// Two that write a witness, on one call. They give the same verdict and leave the same in the lent slices, and their factors reach the target.
fn compare_both(call: &Call, (ours, theirs): Both<Verdict, Verdict>, lent: &Lent) -> Answer {
    let [mut lent, mut other] = [(); 2].map(|()| lent.clone());
    let verdict = ours(call, &mut lent);
    assert_eq!(verdict, theirs(call, &mut other));
    assert!(lent == other, "the lent slices differ");
    let factors = match verdict {
        Ok(Verdict::Member(count)) => lent.witness[..usize::from(count)].to_vec(),
        Ok(Verdict::None) | Err(_) => Vec::new(),
    };
    if let Ok(Verdict::Member(_)) = verdict {
        assert!(call.reached_by(&factors));
    }
    Answer { verdict, factors }
}

/// All with a bound on one call.
fn compare(call: &Call, lent: &Lent) -> Answer {
    let answer = compare_both(call, BOUNDED, lent);
    // Without a witness question 14 is not put.
    if !matches!(answer.verdict, Err((14, _))) {
        assert_eq!(answer.verdict, counted(call, &mut lent.clone()));
    }
    answer
}

/// Both signed on one call.
fn compare_signed(call: &Call, lent: &Lent) -> Answer {
    compare_both(call, SIGNED, lent)
}

/// What the unsigned ones say of the list with its inverses typed, by signed numbers.
fn compare_typed(call: &Call, lent: &Lent) -> Answer {
    let Answer { verdict, factors } = compare(&call.typed(), lent);
    Answer {
        verdict,
        factors: call.signed(&factors),
    }
}

/// Both without a bound on one call. They give the same verdict and leave the same in the lent slices; what is a member with a bound is a yes, so a no is none.
fn compare_unbounded(
    call: &Call,
    lent: &Lent,
    bounded: Result<Verdict, Refusal>,
) -> Result<bool, Refusal> {
    let [mut ours, mut theirs] = [(); 2].map(|()| lent.clone());
    let verdict = proved_unbounded(call, &mut ours);
    assert_eq!(verdict, plain_unbounded(call, &mut theirs));
    assert!(ours == theirs, "the lent slices differ");
    match bounded {
        Ok(Verdict::Member(_)) => assert_eq!(verdict, Ok(true)),
        Ok(Verdict::None) => assert!(verdict.is_ok()),
        // Questions 13 and 14 are about the bound.
        Err((13 | 14, _)) => {}
        Err(refusal) => assert_eq!(verdict, Err(refusal)),
    }
    verdict
}

/// Whether a verdict finds a product.
fn found(verdict: Result<Verdict, Refusal>) -> Result<bool, Refusal> {
    verdict.map(|verdict| verdict != Verdict::None)
}

/// Both quick answers on one call. They are the same; where they are no, none of the verdicts finds a product. Of each verdict is given whether it does.
fn compare_quick(call: &Call, verdicts: &[Result<bool, Refusal>]) -> Result<bool, Refusal> {
    let mut nothing = Lent::new(0, 0);
    let answer = proved_quick(call, &mut nothing);
    assert_eq!(answer, plain_quick(call, &mut nothing));
    for &verdict in verdicts {
        match verdict {
            Ok(true) => assert_eq!(answer, Ok(false)),
            Ok(false) => assert!(answer.is_ok()),
            // Questions 13 to 15 are about the bound and what is lent.
            Err((13..=15, _)) => assert!(answer.is_ok()),
            Err(refusal) => assert_eq!(answer, Err(refusal)),
        }
    }
    answer
}

/// How many verdicts are members, and how many none.
#[derive(Default)]
struct Tally {
    members: usize,
    none: usize,
}

impl Tally {
    fn note(&mut self, verdict: Result<Verdict, Refusal>) {
        match verdict {
            Ok(Verdict::Member(_)) => self.members += 1,
            Ok(Verdict::None) => self.none += 1,
            Err(_) => {}
        }
    }

    /// The rest of the calls are refused.
    fn of(&self, calls: usize) -> String {
        let Tally { members, none } = self;
        let refused = calls - members - none;
        format!("{members} members, {none} none, {refused} refused")
    }
}

/// The largest bound at which a walk of the group goes through the inverses too.
const SIGNED_WALK: u16 = 4;

/// Both signed on one call, the unsigned ones on the list with its inverses typed, and a walk of the group.
fn compare_small_signed(call: &Call, lent: &Lent) -> Result<Verdict, Refusal> {
    let answer = compare_signed(call, lent);
    if answer.verdict.is_err() {
        return answer.verdict;
    }
    assert_eq!(answer, compare_typed(call, lent));
    let near = Call {
        n: call.n.min(SIGNED_WALK),
        ..call.clone()
    };
    compare_signed(&near, lent).must_be(near.walked_signed());
    answer.verdict
}

/// Both quick answers on one call, and all products modulo 7.
fn compare_small_quick(call: &Call, verdicts: &[Result<bool, Refusal>]) -> Result<bool, Refusal> {
    let answer = compare_quick(call, verdicts);
    if let Ok(no) = answer {
        assert_eq!(no, call.fails_modulo_7());
    }
    answer
}

fn compare_small(calls: usize) {
    let mut random = Random(0x6b65726e656c);
    let (mut bounded, mut signed) = (Tally::default(), Tally::default());
    let (mut yes, mut no) = (0, 0);
    let (mut quick_no, mut open) = (0, 0);
    for _ in 0..calls {
        let (call, lent) = small_call(&mut random);
        let in_subgroup = compare_small_signed(&call, &lent);
        signed.note(in_subgroup);
        let answer = compare(&call, &lent);
        let unbounded = compare_unbounded(&call, &lent, answer.verdict);
        match unbounded {
            Ok(true) => yes += 1,
            Ok(false) => no += 1,
            Err(_) => {}
        }
        // Series of these lists are short: what is a product at all is one of at most 1000 factors.
        let widest = Call {
            n: 1000,
            ..call.clone()
        };
        let within = found(counted(&widest, &mut lent.clone()));
        assert_eq!(unbounded, within);
        let verdicts = [found(answer.verdict), unbounded, found(in_subgroup)];
        match compare_small_quick(&call, &verdicts) {
            Ok(true) => quick_no += 1,
            Ok(false) => open += 1,
            Err(_) => {}
        }
        bounded.note(answer.verdict);
        if answer.verdict.is_ok() {
            answer.must_be(call.walked());
        }
    }
    println!(
        "Both agree on {calls} small random calls, and a walk of the group finds the same factors: {}.\n",
        bounded.of(calls)
    );
    println!(
        "Without a bound both agree on them too, and with n 1000 plain Rust says the same: {yes} yes, {no} no, {} refused.\n",
        calls - yes - no
    );
    println!(
        "Signed both agree on them too, with the inverses typed the unsigned ones, and for n up to {SIGNED_WALK} a walk of the group: {}.\n",
        signed.of(calls)
    );
    println!(
        "The quick answers of both agree on them too, and all products modulo 7 say the same; where they are no, none of the three verdicts finds a product: \
         {quick_no} no, {open} open, {} refused.\n",
        calls - quick_no - open
    );
}

#[repr(C)]
struct Timespec {
    seconds: i64,
    nanoseconds: i64,
}

// Of the C library that every Rust program on Linux is linked with.
extern "C" {
    fn clock_gettime(clock: i32, time: *mut Timespec) -> i32;
}

const CLOCK_THREAD_CPUTIME_ID: i32 = 3;

/// The processor time of this thread, in milliseconds: what others do on the machine counts less than by the clock on the wall.
fn now() -> f64 {
    let mut time = Timespec {
        seconds: 0,
        nanoseconds: 0,
    };
    let status = unsafe { clock_gettime(CLOCK_THREAD_CPUTIME_ID, &mut time) };
    assert_eq!(status, 0);
    time.seconds as f64 * 1e3 + time.nanoseconds as f64 / 1e6
}

fn timed<T>(run: impl FnOnce() -> T) -> f64 {
    let start = now();
    std::hint::black_box(run());
    now() - start
}

fn median(numbers: impl Iterator<Item = f64>) -> f64 {
    let mut numbers: Vec<_> = numbers.collect();
    numbers.sort_by(f64::total_cmp);
    numbers[numbers.len() / 2]
}

/// Medians over rounds: the milliseconds of a call of both, and the ratio of their sums, which a machine that is slow for a while leaves as it is.
struct Measured {
    proved: f64,
    other: f64,
    ratio: f64,
}

/// The milliseconds of one of the two on some calls.
fn measure_one<T>(calls: &[Call], run: Run<T>, lent: &mut Lent) -> f64 {
    let calls = std::hint::black_box(calls);
    timed(|| {
        for call in calls {
            let _ = std::hint::black_box(run(call, lent));
        }
    })
}

/// The milliseconds of both on some calls. The one that comes second finds the calls in the cache.
fn measure_calls<A, B>(
    calls: &[Call],
    (ours, theirs): Both<A, B>,
    lent: &mut Lent,
    ours_first: bool,
) -> (f64, f64) {
    if ours_first {
        let time = measure_one(calls, ours, lent);
        (time, measure_one(calls, theirs, lent))
    } else {
        let time = measure_one(calls, theirs, lent);
        (measure_one(calls, ours, lent), time)
    }
}

/// How many rounds to measure at least, and for how many milliseconds; and how many calls lie between two looks at the clock.
struct Length {
    rounds: usize,
    milliseconds: f64,
    together: usize,
}

const LONG: Length = Length {
    rounds: 5,
    milliseconds: 2000.0,
    together: 1,
};

const SHORT: Length = Length {
    rounds: 3,
    milliseconds: 1000.0,
    together: 1,
};

/// A look at the clock takes half a microsecond, and a quick answer a few.
const TOGETHER: Length = Length {
    rounds: 3,
    milliseconds: 1000.0,
    together: LISTS,
};

/// Rounds over all calls, each made once by a proved verdict and once by the other. One call made again and again takes less time than a job sees, which
/// asks about each list once. So the two of plain Rust are not measured in the same rounds: they are the same code.
fn measure<A, B>(calls: &[Call], both: Both<A, B>, length: Length, lent: &mut Lent) -> Measured {
    let mut sums = Vec::new();
    let start = now();
    while sums.len() < length.rounds || now() - start < length.milliseconds {
        let ours_first = sums.len() % 2 == 0;
        let times = calls
            .chunks(length.together)
            .map(|calls| measure_calls(calls, both, lent, ours_first));
        sums.push(times.fold((0.0, 0.0), |sum, time| (sum.0 + time.0, sum.1 + time.1)));
    }
    Measured {
        proved: median(sums.iter().map(|&(ours, _)| ours)) / calls.len() as f64,
        other: median(sums.iter().map(|&(_, theirs)| theirs)) / calls.len() as f64,
        ratio: median(sums.iter().map(|&(ours, theirs)| ours / theirs)),
    }
}

/// How many generators of how many letters have 320 together.
const SHAPES: [(usize, usize); 4] = [(64, 5), (32, 10), (16, 20), (4, 80)];

/// How many lists of a shape are measured.
const LISTS: usize = 60;

/// The same of each shape where lists are signed: those of the third take longest by far.
const SIGNED_LISTS: [usize; 4] = [LISTS, LISTS, FEW, LISTS];

/// Lists of powers of T = SR and U = SSR, and targets of each, which all are products. There are many series of equal count, and they are long.
const POWERS: [(&str, &[&str]); 4] = [
    (
        "T^37, T^-26, U^26, U^-35",
        &["T", "U", "T U", "T^-3 U^2", "T^5 U^-7"],
    ),
    ("T^37, T^-26, T^-1 U^24 T^-1, T^-1 U^-37", &["U"]),
    // A product only of more than 1000 factors.
    ("T^37, T^-26, T^-1 U^25, T^-1 U^-34", &["U"]),
    (
        "T^13, T^-11, U^9, U^-13, T^7, U^-7",
        &["T", "U", "T U", "T^-3 U^2", "T^5 U^-7", "T^8 U^8"],
    ),
];

/// The normal form of a product of powers.
fn power_word(text: &str) -> Vec<u8> {
    let letters = |power: &str| {
        let (base, exponent) = power.split_once('^').unwrap_or((power, "1"));
        let exponent: i32 = exponent.parse().expect("an exponent");
        let base = match (base, exponent < 0) {
            ("T", false) => "SR",
            ("T", true) => "RSS",
            ("U", false) => "SSR",
            ("U", true) => "RS",
            _ => panic!("{base} is neither T nor U"),
        };
        base.repeat(exponent.unsigned_abs() as usize)
    };
    normal_form(text.split(' ').map(letters).collect::<String>().as_bytes())
}

/// Calls that are measured together.
struct Kind {
    name: String,
    calls: Vec<Call>,
}

fn powers() -> [Kind; 4] {
    POWERS.map(|(generators, targets)| {
        let list: Vec<_> = generators.split(", ").map(power_word).collect();
        let call = |target: &&str| call_of(&list, power_word(target), 1000);
        Kind {
            name: generators.to_string(),
            calls: targets.iter().map(call).collect(),
        }
    })
}

/// `lists` says how many of each shape.
fn kinds(lists: [usize; 4]) -> Vec<Kind> {
    let random = SHAPES
        .iter()
        .zip(lists)
        .map(|(&(generators, letters), lists)| Kind {
            name: format!("{generators} of {letters}"),
            calls: large_calls(lists, generators, letters, 1000),
        });
    random.chain(powers()).collect()
}

/// What can be typed with its inverses: random lists that are half as long, and powers.
fn typed_kinds() -> Vec<Kind> {
    let random = SHAPES.map(|(generators, letters)| Kind {
        name: format!("{} of {letters}", generators / 2),
        calls: random_calls(generators / 2, letters, 80, 1000)
            .filter(Call::can_be_typed)
            .take(LISTS)
            .collect(),
    });
    let typed = |kind: &Kind| kind.calls.iter().all(Call::can_be_typed);
    let powers = powers().into_iter().filter(typed);
    random.into_iter().chain(powers).collect()
}

/// The calls of a kind again and again, until they are as many as there are lists of a shape: so a look at the clock is spread over as many.
fn repeated(calls: &[Call]) -> Vec<Call> {
    calls.iter().cycle().take(LISTS).cloned().collect()
}

/// The ratios of the proved verdict to plain Rust on one kind, and of the quick answer.
struct Ratios {
    bounded: f64,
    unbounded: f64,
    signed: f64,
    quick: f64,
}

fn print_ratios(lent: &mut Lent) {
    for (Kind { calls, .. }, signed) in kinds([LISTS; 4]).iter().zip(kinds(SIGNED_LISTS)) {
        let bounded = measure(calls, BOUNDED, LONG, lent).ratio;
        let unbounded = measure(calls, UNBOUNDED, LONG, lent).ratio;
        let signed = measure(&signed.calls, SIGNED, SHORT, lent).ratio;
        let quick = measure(&repeated(calls), QUICK, TOGETHER, lent).ratio;
        println!("{bounded:.4} {unbounded:.4} {signed:.4} {quick:.4}");
    }
}

/// What `print_ratios` printed, of a program whose functions are moved.
fn read_ratios(file: &str) -> Vec<Ratios> {
    let text = std::fs::read_to_string(file).expect("a file of ratios");
    let read = |line: &str| {
        let ratios: Vec<f64> = line
            .split(' ')
            .map(|ratio| ratio.parse().expect("a ratio"))
            .collect();
        let [bounded, unbounded, signed, quick] = ratios[..] else {
            panic!("{line} is not four ratios");
        };
        Ratios {
            bounded,
            unbounded,
            signed,
            quick,
        }
    };
    text.lines().map(read).collect()
}

/// Two cells of a table: a ratio and those where the functions are moved, and the mean of them all.
fn cells(ratio: f64, moved: impl Iterator<Item = f64>) -> String {
    let ratios: Vec<f64> = std::iter::once(ratio).chain(moved).collect();
    let mean = ratios.iter().sum::<f64>() / ratios.len() as f64;
    let ratios: Vec<_> = ratios.iter().map(|ratio| format!("{ratio:.2}")).collect();
    format!("{} | {mean:.2}", ratios.join(" "))
}

fn compare_all(calls: &[Call], lent: &Lent) -> Vec<Answer> {
    calls.iter().map(|call| compare(call, lent)).collect()
}

fn compare_all_signed(calls: &[Call], lent: &Lent) -> Vec<Answer> {
    let compare = |call| compare_signed(call, lent);
    calls.iter().map(compare).collect()
}

/// The number of factors, where there is a series.
fn counts(answers: &[Answer]) -> Vec<usize> {
    let count = |answer: &Answer| match answer.verdict {
        Ok(Verdict::Member(count)) => Some(usize::from(count)),
        Ok(Verdict::None) | Err(_) => None,
    };
    answers.iter().filter_map(count).collect()
}

/// Some of the calls, each with the largest bound that its target is not within.
fn none_calls(calls: &[Call], answers: &[Answer]) -> Vec<Call> {
    let none_call = |(call, answer): (&Call, &Answer)| match answer.verdict {
        Ok(Verdict::Member(count)) => Call {
            n: count - 1,
            ..call.clone()
        },
        Ok(Verdict::None) | Err(_) => call.clone(),
    };
    calls.iter().zip(answers).take(FEW).map(none_call).collect()
}

/// Prints the table, and answers the ratio of each kind. `moved` are the ratios where the functions are moved, of each program in turn.
fn against_plain_rust(kinds: &[Kind], lent: &mut Lent, moved: &[Vec<Ratios>]) -> Vec<f64> {
    println!("| generators | calls | members | most factors | proved, ms | plain Rust, ms | ratios | mean |");
    println!("|---|---|---|---|---|---|---|---|");
    let measured = kinds.iter().enumerate().map(|(i, Kind { name, calls })| {
        let counts = counts(&compare_all(calls, lent));
        let Measured {
            proved,
            other,
            ratio,
        } = measure(calls, BOUNDED, LONG, lent);
        println!(
            "| {name} | {} | {} | {} | {proved:.3} | {other:.3} | {} |",
            calls.len(),
            counts.len(),
            counts.iter().max().unwrap_or(&0),
            cells(ratio, moved.iter().map(|ratios| ratios[i].bounded))
        );
        ratio
    });
    let ratios = measured.collect();
    println!();
    ratios
}

/// Prints the table of the verdict without a bound. The last ratio is to the proved verdict with the calls' own bound.
fn without_a_bound(kinds: &[Kind], lent: &mut Lent, moved: &[Vec<Ratios>]) {
    println!(
        "| generators | calls | yes | proved, ms | plain Rust, ms | ratios | mean | over n 1000 |"
    );
    println!("|---|---|---|---|---|---|---|---|");
    for (i, Kind { name, calls }) in kinds.iter().enumerate() {
        let answers = compare_all(calls, lent);
        let yes = |(call, answer): &(&Call, &Answer)| {
            compare_unbounded(call, lent, answer.verdict) == Ok(true)
        };
        let yes = calls.iter().zip(&answers).filter(yes).count();
        let Measured {
            proved,
            other,
            ratio,
        } = measure(calls, UNBOUNDED, LONG, lent);
        let over_bounded = measure(calls, OVER_BOUNDED, SHORT, lent).ratio;
        println!(
            "| {name} | {} | {yes} | {proved:.3} | {other:.3} | {} | {over_bounded:.2} |",
            calls.len(),
            cells(ratio, moved.iter().map(|ratios| ratios[i].unbounded))
        );
    }
    println!();
}

/// The m of the largest of these lists with its inverses. The generators are in normal form.
fn most_letters(calls: &[Call]) -> usize {
    let letters = |call: &Call| call.typed().bytes.len();
    calls.iter().map(letters).max().unwrap_or(0)
}

/// Prints the table of the signed verdict. The last ratio is to the proved unsigned one.
fn signed(kinds: &[Kind], lent: &mut Lent, moved: &[Vec<Ratios>]) {
    println!("| generators | calls | most m | members | most factors | proved, ms | plain Rust, ms | ratios | mean | over unsigned |");
    println!("|---|---|---|---|---|---|---|---|---|---|");
    for (i, Kind { name, calls }) in kinds.iter().enumerate() {
        let counts = counts(&compare_all_signed(calls, lent));
        let Measured {
            proved,
            other,
            ratio,
        } = measure(calls, SIGNED, SHORT, lent);
        let over_unsigned = measure(calls, OVER_UNSIGNED, SHORT, lent).ratio;
        println!(
            "| {name} | {} | {} | {} | {} | {proved:.3} | {other:.3} | {} | {over_unsigned:.2} |",
            calls.len(),
            most_letters(calls),
            counts.len(),
            counts.iter().max().unwrap_or(&0),
            cells(ratio, moved.iter().map(|ratios| ratios[i].signed))
        );
    }
    println!();
}

/// Prints the table of the signed verdict beside the unsigned one on the list with its inverses typed, both proved.
fn against_typing(lent: &mut Lent) {
    println!(
        "| generators | calls | most m | members | signed, ms | typed, ms | signed over typed |"
    );
    println!("|---|---|---|---|---|---|---|");
    for Kind { name, calls } in typed_kinds() {
        let answers = compare_all_signed(&calls, lent);
        for (call, answer) in calls.iter().zip(&answers) {
            assert_eq!(*answer, compare_typed(call, lent));
        }
        let typed: Vec<_> = calls.iter().map(Call::typed).collect();
        let Measured {
            proved,
            other,
            ratio,
        } = measure(&typed, OVER_TYPED, SHORT, lent);
        println!(
            "| {name} | {} | {} | {} | {proved:.3} | {other:.3} | {ratio:.2} |",
            calls.len(),
            most_letters(&calls),
            counts(&answers).len()
        );
    }
    println!();
}

/// How many of these get the quick no. What gets it is none with a bound, as `answers` say.
fn quick_noes(calls: &[Call], answers: &[Answer]) -> usize {
    let no = |(call, answer): &(&Call, &Answer)| {
        compare_quick(call, &[found(answer.verdict)]) == Ok(true)
    };
    calls.iter().zip(answers).filter(no).count()
}

/// Prints the table of the quick answer. The last ratio is that of the proved verdict to it, so how many times less it takes.
fn at_once(kinds: &[Kind], lent: &mut Lent, moved: &[Vec<Ratios>]) {
    println!("| generators | calls | no | proved, µs | plain Rust, µs | ratios | mean | n 1000 over it |");
    println!("|---|---|---|---|---|---|---|---|");
    for (i, Kind { name, calls }) in kinds.iter().enumerate() {
        let no = quick_noes(calls, &compare_all(calls, lent));
        let Measured {
            proved,
            other,
            ratio,
        } = measure(&repeated(calls), QUICK, TOGETHER, lent);
        let over_it = measure(calls, BOUNDED_OVER_QUICK, TOGETHER, lent).ratio;
        println!(
            "| {name} | {} | {no} | {:.2} | {:.2} | {} | {over_it:.0} |",
            calls.len(),
            proved * 1e3,
            other * 1e3,
            cells(ratio, moved.iter().map(|ratios| ratios[i].quick))
        );
    }
    println!();
}

/// How many queries are asked of each of these shapes, with targets of how many letters, to count which get the quick no.
const QUERIES: usize = 500;
const QUERY_TARGET: usize = 20;
const QUERY_SHAPES: [(usize, usize); 9] = [
    (1, 5),
    (1, 10),
    (1, 20),
    (2, 5),
    (2, 10),
    (2, 20),
    (3, 5),
    (3, 10),
    (3, 20),
];

/// Prints how many random queries are none, and how many of these get the quick no.
fn random_queries() {
    println!("| generators | queries | none | quick no | of the none |");
    println!("|---|---|---|---|---|");
    for (generators, letters) in QUERY_SHAPES {
        let calls: Vec<_> = random_calls(generators, letters, QUERY_TARGET, 1000)
            .take(QUERIES)
            .collect();
        let q = generators * letters + 2 * QUERY_TARGET + 1;
        let answers = compare_all(&calls, &Lent::new(q * q, 1000));
        let none = QUERIES - counts(&answers).len();
        let no = quick_noes(&calls, &answers);
        println!(
            "| {generators} of {letters} | {QUERIES} | {none} | {no} | {:.2} |",
            no as f64 / none as f64
        );
    }
    println!();
}

/// Times over those of plain Rust that only counts. `ratios` are those of the proved verdict to plain Rust.
fn over_counting(kinds: &[Kind], lent: &mut Lent, ratios: &[f64]) {
    println!("Counting is plain Rust without the witness. For `none` up to {FEW} of the calls have n one below the least count, where there is a series.\n");
    println!("| generators | counting, ms | proved | plain Rust | proved, none |");
    println!("|---|---|---|---|---|");
    for (Kind { name, calls }, ratio) in kinds.iter().zip(ratios) {
        let none_calls = none_calls(calls, &compare_all(calls, lent));
        assert!(counts(&compare_all(&none_calls, lent)).is_empty());
        let none = measure(&none_calls, OVER_COUNTING, SHORT, lent);
        let measured = measure(calls, OVER_COUNTING, SHORT, lent);
        println!(
            "| {name} | {:.3} | {:.2} | {:.2} | {:.2} |",
            measured.other,
            measured.ratio,
            measured.ratio / ratio,
            none.ratio
        );
    }
    println!();
}

/// How many lists of a shape are measured where only the growth matters.
const FEW: usize = 8;

/// Lists of a shape with fewer generators.
fn calls_of_m(generators: usize, letters: usize, m: usize) -> Vec<Call> {
    large_calls(FEW, generators * m / 320, letters, 1000)
}

/// The milliseconds of the proved verdict.
fn milliseconds(calls: &[Call], lent: &mut Lent) -> String {
    compare_all(calls, lent);
    format!("{:.3}", measure(calls, BOUNDED, SHORT, lent).proved)
}

/// The time of the proved signed verdict over that of the unsigned one.
fn over_unsigned(calls: &[Call], lent: &mut Lent) -> String {
    compare_all_signed(calls, lent);
    format!("{:.2}", measure(calls, OVER_UNSIGNED, SHORT, lent).ratio)
}

fn growth(
    heading: &str,
    values: [usize; 3],
    calls: fn(usize, usize, usize) -> Vec<Call>,
    cell: fn(&[Call], &mut Lent) -> String,
    lent: &mut Lent,
) {
    println!(
        "| generators | {heading} {} | {heading} {} | {heading} {} |",
        values[0], values[1], values[2]
    );
    println!("|---|---|---|---|");
    for (generators, letters) in SHAPES {
        let cells = values.map(|value| cell(&calls(generators, letters, value), lent));
        println!("| {generators} of {letters} | {} |", cells.join(" | "));
    }
    println!();
}

/// The bound at which a walk of the group is measured: with each factor more it visits as many times more elements as the list has generators.
const WALK: u16 = 5;

fn print_lines(lines: &[plot::Line]) {
    let heads: String = lines
        .iter()
        .map(|line| format!(" {}, ms |", line.name))
        .collect();
    println!("| m |{heads}\n|---{}|", "|---".repeat(lines.len()));
    for (i, (m, _)) in lines[0].points.iter().enumerate() {
        let times: String = lines
            .iter()
            .map(|line| format!(" {:.3} |", line.points[i].1))
            .collect();
        println!("| {m} |{times}");
    }
}

/// Lists of generators of 10 letters, and a target that none of their short products is.
fn over_m(lent: &mut Lent) -> Vec<plot::Line> {
    let mut lines = [
        ("proved", "#c0392b", "none"),
        ("plain Rust", "#2471a3", "6 6"),
        ("walk of the group", "#7d8c2e", "none"),
    ]
    .map(|(name, colour, dashes)| plot::Line {
        name,
        colour,
        dashes,
        points: Vec::new(),
    });
    for generators in (4..=32).step_by(4) {
        let calls = large_calls(FEW, generators, 10, WALK);
        let Measured { proved, other, .. } = measure(&calls, BOUNDED, SHORT, lent);
        let mut found = Vec::new();
        let walk = timed(|| found = calls.iter().map(Call::walked).collect());
        for (answer, series) in compare_all(&calls, lent).iter().zip(found) {
            answer.must_be(series);
        }
        for (line, time) in lines.iter_mut().zip([proved, other, walk / FEW as f64]) {
            line.points.push((10.0 * generators as f64, time));
        }
    }
    lines.into()
}

fn main() {
    let words: Vec<String> = std::env::args().skip(1).collect();
    let (plot, files) = words
        .split_first()
        .expect("agree, ratios, or the plot's file");
    reference::shift();
    let mut lent = Lent::new(993 * 993, 1000);
    match plot.as_str() {
        "agree" => return compare_small(20_000),
        "ratios" => return print_ratios(&mut lent),
        _ => {}
    }
    let moved: Vec<_> = files.iter().map(|file| read_ratios(file)).collect();
    compare_small(20_000);
    let all = kinds([LISTS; 4]);
    println!("## m 320, t 80; and powers of T = SR and U = SSR with products of them as targets: n 1000\n");
    let ratios = against_plain_rust(&all, &mut lent, &moved);
    println!("## The same calls without a bound, and over the proved verdict with n 1000\n");
    without_a_bound(&all, &mut lent, &moved);
    println!("## The same lists signed, and over the proved unsigned verdict: n 1000\n");
    signed(&kinds(SIGNED_LISTS), &mut lent, &moved);
    println!("## Signed over unsigned as the given list's m grows: t 80, n 1000\n");
    growth("m", [80, 160, 320], calls_of_m, over_unsigned, &mut lent);
    println!("## Signed beside the same list with its inverses typed: t 80, n 1000\n");
    against_typing(&mut lent);
    println!("## The quick no on the same calls, and the proved verdict with n 1000 over it\n");
    at_once(&all, &mut lent, &moved);
    println!("## How many random queries get the quick no: t {QUERY_TARGET}, none with n 1000\n");
    random_queries();
    println!("## What the choice of the first series costs: times over that of counting\n");
    over_counting(&all, &mut lent, &ratios);
    println!("## Milliseconds of the proved verdict as m grows: t 80, n 1000\n");
    growth("m", [80, 160, 320], calls_of_m, milliseconds, &mut lent);
    println!("## Milliseconds of the proved verdict as n grows: m 320, t 80\n");
    growth(
        "n",
        [10, 100, 1000],
        |generators, letters, n| large_calls(FEW, generators, letters, n as u16),
        milliseconds,
        &mut lent,
    );
    println!("## Beside a walk of the group: generators of 10 letters, t 80, n {WALK}\n");
    let lines = over_m(&mut lent);
    print_lines(&lines);
    let title = format!("A verdict on generators of 10 letters, t 80, n {WALK}");
    std::fs::write(plot, plot::svg(&title, &lines)).expect("the plot is written");
}
