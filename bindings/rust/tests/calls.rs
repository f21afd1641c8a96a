//! The package's functions on worked values, edges, and what they refuse.

use kernelhop::{
    answer_card, invert, is_normal, lent, matrix_to_word, quick_no, reachable, reduce,
    subgroup_verdict, verdict, version, word_to_matrix, Reduction, SignedFactor, SubgroupMember,
    SubgroupVerdict, Verdict,
};
use std::{cell::RefCell, sync::mpsc, thread};

/// The library's calls with their contracts, one of which says the release.
const CONTRACTS: &str = include_str!("../../../crates/kernelhop/src/lib.rt");

fn member(factors: &[usize]) -> Verdict {
    Verdict::Member {
        factors: factors.to_vec(),
    }
}

/// The number and the place of a refusal.
fn refused<T: std::fmt::Debug>(answer: Result<T, kernelhop::Refusal>) -> (u8, usize) {
    let refusal = answer.unwrap_err();
    (refusal.number(), refusal.place())
}

/// What a word is reduced to, and how many pairs and triples went.
fn reduction(word: &str, pairs: usize, triples: usize) -> Reduction {
    Reduction {
        word: word.into(),
        pairs,
        triples,
    }
}

#[test]
fn normal_forms() {
    assert_eq!(reduce("RR").unwrap(), reduction("", 1, 0));
    assert_eq!(reduce("SSS").unwrap(), reduction("", 0, 1));
    assert_eq!(reduce("SSSS").unwrap(), reduction("S", 0, 1));
    assert_eq!(reduce("").unwrap(), reduction("", 0, 0));
    assert_eq!(reduce("SSRSRSS").unwrap(), reduction("SSRSRSS", 0, 0));
    // A pair that meets only when a triple has gone, and triples whose letters meet only when pairs have.
    assert_eq!(reduce("RSSSR").unwrap(), reduction("", 1, 1));
    assert_eq!(reduce("SRRSRRS").unwrap(), reduction("", 2, 1));
    assert_eq!(reduce("SSRSSSRS").unwrap(), reduction("", 1, 2));
    assert_eq!(reduce(b"RSRRSRRSSR").unwrap(), reduction("RSR", 2, 1));
    // As many as there can be of each.
    assert_eq!(reduce("R".repeat(4096)).unwrap(), reduction("", 2048, 0));
    assert_eq!(reduce("S".repeat(4096)).unwrap(), reduction("S", 0, 1365));
    assert_eq!(invert("SR").unwrap(), "RSS");
    assert_eq!(invert("").unwrap(), "");
}

/// Random letters, the same ones in every run.
fn random_letters() -> impl Iterator<Item = char> {
    let mut bits = 1u32;
    std::iter::repeat_with(move || {
        bits = bits.wrapping_mul(1_664_525).wrapping_add(1_013_904_223);
        ['S', 'R'][(bits >> 31) as usize]
    })
}

/// The two equations, which leave no other counts.
#[test]
fn letters_that_went() {
    let rs = |word: &str| word.matches('R').count();
    let mut letters = random_letters();
    for length in (0..200).chain([1000, 4095, 4096]) {
        let given: String = letters.by_ref().take(length).collect();
        let reduced = reduce(&given).unwrap();
        assert_eq!(is_normal(&reduced.word), Ok(true));
        let gone = 2 * reduced.pairs + 3 * reduced.triples;
        assert_eq!(given.len(), reduced.word.len() + gone);
        assert_eq!(rs(&given) - rs(&reduced.word), 2 * reduced.pairs);
    }
}

#[test]
fn normality() {
    assert_eq!(is_normal("SSRSRSS"), Ok(true));
    assert_eq!(is_normal(""), Ok(true));
    assert_eq!(is_normal("SRRS"), Ok(false));
    assert_eq!(is_normal("RSSS"), Ok(false));
    assert_eq!(is_normal("RS".repeat(2048)), Ok(true));
    assert_eq!(refused(is_normal("RS".repeat(2048) + "R")), (8, 0));
    assert_eq!(refused(is_normal("RRx")), (10, 2));
}

#[test]
fn words_that_are_refused() {
    assert_eq!(refused(reduce("S".repeat(4097))), (8, 0));
    assert_eq!(refused(reduce("RSr")), (10, 2));
    assert_eq!(refused(invert([0u8, 255])), (10, 0));
}

#[test]
fn matrices() {
    assert_eq!(word_to_matrix("S").unwrap(), [1, -1, 1, 0]);
    assert_eq!(word_to_matrix("SR").unwrap(), [1, 1, 0, 1]);
    assert_eq!(matrix_to_word([1, 0, 1, 1]).unwrap(), "SSR");
    assert_eq!(matrix_to_word([-1, 0, 0, -1]).unwrap(), "");
    assert_eq!(matrix_to_word([1, 40, 0, 1]).unwrap(), "SR".repeat(40));
    assert_eq!(matrix_to_word([1, -26, 0, 1]).unwrap().len(), 78);
}

#[test]
fn matrices_that_are_refused() {
    assert_eq!(refused(matrix_to_word([1, 41, 0, 1])), (12, 0));
    assert_eq!(refused(matrix_to_word([1, -27, 0, 1])), (12, 0));
    assert_eq!(refused(matrix_to_word([1, 0, i64::MIN, 1])), (5, 2));
    assert_eq!(refused(matrix_to_word([1, 0, 0, -1])), (6, 0));
    assert_eq!(refused(word_to_matrix("SR".repeat(41))), (12, 0));
    assert_eq!(refused(word_to_matrix("x")), (10, 0));
}

#[test]
fn verdicts() {
    let list = ["RSRS", "S", "SRSS"];
    assert_eq!(verdict(&list, "R", 3).unwrap(), member(&[0, 1, 2]));
    assert_eq!(verdict(&list, "R", 2).unwrap(), Verdict::None { n: 2 });
    assert_eq!(verdict(&["RS", "S"], "R", 3).unwrap(), member(&[0, 1, 1]));
    assert_eq!(
        verdict(&["RS", "S"], "R", 2).unwrap(),
        Verdict::None { n: 2 }
    );
    assert_eq!(verdict(&["SSS"], "", 5).unwrap(), member(&[0]));
    assert_eq!(verdict(&[""; 0], "", 0).unwrap(), Verdict::None { n: 0 });
    assert_eq!(
        verdict(&[""; 0], "R", 1000).unwrap(),
        Verdict::None { n: 1000 }
    );
    assert_eq!(
        verdict(&["SR"], "SR".repeat(40), 1000).unwrap(),
        member(&[0; 40])
    );
    assert_eq!(verdict(&[b"SR"], b"SRSRSR", 3).unwrap(), member(&[0, 0, 0]));
}

/// Of several least series the first when numbers are compared from left to right.
#[test]
fn the_first_of_the_least() {
    let first = |list: &[&str], target| verdict(list, target, 1000).unwrap();
    // Equal generators, as written and by the rules.
    assert_eq!(first(&["S", "R", "R"], "R"), member(&[1]));
    assert_eq!(first(&["RS", "SRRR", "SR"], "SRSR"), member(&[1, 1]));
    // Empty generators.
    assert_eq!(first(&["", "S", "RR", "S", ""], "SS"), member(&[1, 1]));
    // 0 2 and 3 0; 0 2 2, 1 0 2 and 1 1 0; 0 0 1 0, 0 1 0 1 and 1 0 1 1.
    assert_eq!(first(&["S", "SS", "RS", "SR"], "SRS"), member(&[0, 2]));
    assert_eq!(first(&["SS", "RS", "SR"], "RSR"), member(&[0, 2, 2]));
    assert_eq!(first(&["RS", "SR"], "RSR"), member(&[0, 0, 1, 0]));
    // Powers of T = SR: 17 times 10 is 13 times 13 and 1 more, and they may stand in any order.
    let powers = ["SR".repeat(17), "RSS".repeat(13)];
    let factors = [vec![0; 10], vec![1; 13]].concat();
    assert_eq!(verdict(&powers, "SR", 1000).unwrap(), member(&factors));
}

/// Products of one factor or more that equal the identity: an empty target asks for the first of the least.
#[test]
fn relations() {
    let first = |list: &[&str], target| verdict(list, target, 1000).unwrap();
    let none = |list: &[&str], n| verdict(list, "", n) == Ok(Verdict::None { n });
    assert_eq!(first(&["SSS"], ""), member(&[0]));
    assert_eq!(first(&["R"], ""), member(&[0, 0]));
    assert_eq!(first(&["S"], ""), member(&[0, 0, 0]));
    assert_eq!(first(&["S", "SS"], ""), member(&[0, 1]));
    assert_eq!(first(&["S", "SS"], "RSSSR"), member(&[0, 1]));
    // 2 2 and 3 3, since SRSS is its own inverse as R is; 0 1 2 3 has more factors.
    assert_eq!(first(&["RSRS", "S", "SRSS", "R"], ""), member(&[2, 2]));
    // T and the inverse of U: the first of eight.
    assert_eq!(first(&["SR", "RS"], ""), member(&[0, 0, 1, 0, 0, 1]));
    assert!(none(&["SR", "RS"], 5));
    // An empty generator, and one that vanishes: of several the first.
    assert_eq!(first(&[""], ""), member(&[0]));
    assert_eq!(first(&["R", "RSSSR", ""], ""), member(&[1]));
    // With n 0 there is no product, nor is there one of a list that has no generators; and no power of T is the identity.
    assert!(none(&["SSS"], 0) && none(&[""], 0) && none(&["R"], 1));
    assert!(none(&[], 1000) && none(&["SR"], 1000));
}

/// T to the 37th and the -26th, and U to the 24th and the -37th between powers of T: 972 factors make U. They are 33 runs of T's powers, in each the 37th
/// first, with one of the others between two runs.
#[test]
fn a_long_series() {
    let list = [
        "SR".repeat(37),
        "RSS".repeat(26),
        format!("RSS{}RSS", "SSR".repeat(24)),
        format!("RSS{}", "RS".repeat(37)),
    ];
    let Verdict::Member { factors } = verdict(&list, "SSR", 1000).unwrap() else {
        panic!("none");
    };
    assert_eq!(factors.len(), 972);
    let runs: Vec<_> = factors.split(|&factor| factor > 1).collect();
    assert!(runs.iter().all(|run| !run.is_empty() && run.is_sorted()));
    assert_eq!(runs.len(), 33);
    assert_eq!(
        verdict(&list, "SSR", 971).unwrap(),
        Verdict::None { n: 971 }
    );
}

/// The largest list, target and bound that the questions let pass.
#[test]
fn the_largest_tables() {
    let list: Vec<_> = (0..4).map(|_| "SR".repeat(40)).collect();
    assert_eq!(verdict(&list, "SR".repeat(40), 1000).unwrap(), member(&[0]));
    assert_eq!(reachable(&list, "SR".repeat(40)), Ok(true));
    assert_eq!(reachable(&list, "SR".repeat(39)), Ok(false));
}

#[test]
fn without_a_bound() {
    assert_eq!(reachable(&["RSRS", "S", "SRSS"], "R"), Ok(true));
    assert_eq!(reachable(&["RS", "S"], "R"), Ok(true));
    assert_eq!(reachable(&["SR", "RSS"], "RSSRSS"), Ok(true));
    assert_eq!(reachable(&[b"SR"], b"SRSRSR"), Ok(true));
    assert_eq!(reachable(&["SR"], "R"), Ok(false));
    assert_eq!(reachable(&["SR"], "RSS"), Ok(false));
    assert_eq!(reachable(&["", "SSS"], "S"), Ok(false));
    assert_eq!(reachable(&[""; 0], "R"), Ok(false));
}

/// No power of T is a relation, and there is none of a list that has no generators.
#[test]
fn relations_without_a_bound() {
    assert_eq!(reachable(&["SSS"], ""), Ok(true));
    assert_eq!(reachable(&["R"], ""), Ok(true));
    assert_eq!(reachable(&["S", "SS"], "RSSSR"), Ok(true));
    assert_eq!(reachable(&["RSRS", "S", "SRSS", "R"], ""), Ok(true));
    assert_eq!(reachable(&["SR", ""], ""), Ok(true));
    assert_eq!(reachable(&["SR"], "RSSSR"), Ok(false));
    assert_eq!(reachable(&[""; 0], ""), Ok(false));
}

/// T to the 37th and the -26th, and T to the -1st before U to the 25th and the -34th: 1,217 factors make U, and no fewer.
#[test]
fn beyond_every_bound() {
    let list = [
        "SR".repeat(37),
        "RSS".repeat(26),
        format!("RSS{}", "SSR".repeat(25)),
        format!("RSS{}", "RS".repeat(34)),
    ];
    assert_eq!(
        verdict(&list, "SSR", 1000).unwrap(),
        Verdict::None { n: 1000 }
    );
    assert_eq!(reachable(&list, "SSR"), Ok(true));
}

#[test]
fn verdicts_that_are_refused() {
    assert_eq!(refused(verdict(&["R"; 65], "R", 1)), (7, 0));
    assert_eq!(refused(verdict(&["R".repeat(4097)], "R", 1)), (8, 0));
    assert_eq!(
        refused(verdict(&["R".repeat(70_000), "S".into()], "R", 1)),
        (8, 0)
    );
    assert_eq!(refused(verdict(&["R"], "R".repeat(4097), 1)), (8, 0));
    assert_eq!(refused(verdict(&["RS", "Sx"], "R", 1)), (10, 3));
    assert_eq!(refused(verdict(&["RS", "S"], "Rx", 1)), (10, 4));
    assert_eq!(
        refused(verdict(&["R".into(), "SR".repeat(41)], "R", 1)),
        (11, 1)
    );
    assert_eq!(refused(verdict(&vec!["SR".repeat(40); 5], "R", 1)), (11, 4));
    assert_eq!(refused(verdict(&["R"], "SR".repeat(41), 1)), (12, 0));
    assert_eq!(refused(verdict(&["R"], "R", 1001)), (13, 0));
    assert_eq!(refused(verdict(&["R"], "R", u16::MAX)), (13, 0));
}

#[test]
fn refused_without_a_bound() {
    let long = "SR".repeat(41);
    assert_eq!(refused(reachable(&["x"; 65], "x")), (7, 0));
    assert_eq!(refused(reachable(&["R".repeat(4097)], "x")), (8, 0));
    assert_eq!(
        refused(reachable(&["R".repeat(70_000), "S".into()], "x")),
        (8, 0)
    );
    assert_eq!(refused(reachable(&["x"], "R".repeat(4097))), (8, 0));
    assert_eq!(refused(reachable(&["RS", "Sx"], &long)), (10, 3));
    assert_eq!(refused(reachable(&["RS", "S"], "Rx")), (10, 4));
    assert_eq!(refused(reachable(&["R", &long], &long)), (11, 1));
    assert_eq!(
        refused(reachable(&vec!["SR".repeat(40); 5], &long)),
        (11, 4)
    );
    assert_eq!(refused(reachable(&["R"], &long)), (12, 0));
}

/// The member of a subgroup, with n 1,000.
fn in_subgroup(list: &[impl AsRef<[u8]>], target: impl AsRef<[u8]>) -> SubgroupMember {
    match subgroup_verdict(list, target, 1000).unwrap() {
        SubgroupVerdict::Member(found) => found,
        SubgroupVerdict::None { n } => panic!("none {n}"),
    }
}

/// How its factors are shown.
fn shown(list: &[&str], target: &str) -> String {
    in_subgroup(list, target).to_string()
}

#[test]
fn subgroups() {
    assert_eq!(shown(&["SR"], "SRSRSR"), "0 0 0");
    assert_eq!(shown(&["SR"], "RSSRSS"), "0^-1 0^-1");
    assert_eq!(
        subgroup_verdict(&["SR"], "R", 1000),
        Ok(SubgroupVerdict::None { n: 1000 })
    );
    // T times U to the -1st is SRRS.
    assert_eq!(shown(&["SR", "SSR"], "SS"), "0 1^-1");
    // R is its own inverse; of the two numbers the lower is written.
    assert_eq!(shown(&["R"], "R"), "0");
    // A generator stands before every inverse, also one of a lower number.
    assert_eq!(shown(&["S", "SS"], "SS"), "1");
    assert_eq!(shown(&["S"], "SS"), "0^-1");
    // Equal generators, as written and by the rules, and empty ones.
    assert_eq!(shown(&["RS", "SR", "SRRR"], "RSSRSS"), "1^-1 1^-1");
    assert_eq!(shown(&["", "S", "RR", "S", ""], "SS"), "1^-1");
    // A list without generators, and a bound of 0.
    assert_eq!(
        subgroup_verdict(&[""; 0], "R", 1000),
        Ok(SubgroupVerdict::None { n: 1000 })
    );
    assert_eq!(
        subgroup_verdict(&["SR", "S"], "SR", 0),
        Ok(SubgroupVerdict::None { n: 0 })
    );
    assert_eq!(in_subgroup(&[b"SR"], b"RSS").written(), [128]);
}

/// A generator and its inverse are a relation of every list that has one.
#[test]
fn relations_of_subgroups() {
    assert_eq!(shown(&["SR"], ""), "0 0^-1");
    assert_eq!(shown(&["RSRS", "S", "SRSS", "R"], "RSSSR"), "0 0^-1");
    // The inverse stands in the list.
    assert_eq!(shown(&["R"], ""), "0 0");
    assert_eq!(shown(&["S", "SS"], ""), "0 1");
    // A generator that vanishes, and an empty one.
    assert_eq!(shown(&["SSS"], ""), "0");
    assert_eq!(shown(&["R", ""], ""), "1");
    // With n 0 there is no product, nor is there one of a list that has no generators.
    let none = |list: &[&str], n| subgroup_verdict(list, "", n) == Ok(SubgroupVerdict::None { n });
    assert!(none(&["SSS"], 0) && none(&["SR"], 1) && none(&[], 1000));
}

/// T to the 39th and to the 37th: 19 times 37 is 18 times 39 and 1 more. They may stand in any order, and every generator stands before every inverse.
#[test]
fn a_long_series_of_a_subgroup() {
    let powers = ["SR".repeat(39), "SR".repeat(37)];
    let written = |target| in_subgroup(&powers, target).written();
    assert_eq!(written("SR"), [vec![1; 19], vec![128; 18]].concat());
    assert_eq!(written("RSS"), [vec![0; 18], vec![129; 19]].concat());
    assert_eq!(
        subgroup_verdict(&powers, "SR", 36),
        Ok(SubgroupVerdict::None { n: 36 })
    );
}

#[test]
fn signed_factors() {
    let found = in_subgroup(&["SR", "SSR"], "SS");
    let [t, u] = found.factors() else {
        panic!("{found}");
    };
    assert_eq!((t.generator(), t.is_inverse(), t.written()), (0, false, 0));
    assert_eq!((u.generator(), u.is_inverse(), u.written()), (1, true, 129));
    assert_eq!(found.written(), [0, 129]);
    assert_eq!(
        format!("{found:?}"),
        "SubgroupMember { factors: [0, 1^-1], .. }"
    );
    let [zero, inverse, last] = [0, 128, 255].map(SignedFactor::from_written);
    assert_eq!(format!("{zero} {inverse} {last}"), "0 0^-1 127^-1");
    assert!(zero < inverse && SignedFactor::from_written(127) < inverse);
}

/// Generators S, SR, T to the 40th, nothing, and SRR: what is given is shown as it is given, and an inverse in its normal form.
#[test]
fn letters_of_factors() {
    let long = "SR".repeat(40);
    let list = ["S", "SR", &long, "", "SRR"];
    let found = in_subgroup(&list, "RSS");
    assert_eq!(found.written(), [129]);
    let letters = |written| found.letters(SignedFactor::from_written(written));
    for (i, given) in (0..).zip(list) {
        assert_eq!(letters(i), given);
    }
    let inverses = ["SS", "RSS", &"RSS".repeat(40), "", "SS"];
    for (i, inverse) in (128..).zip(inverses) {
        assert_eq!(letters(i), inverse);
    }
    for number in [5, 63, 64, 127, 133, 192, 255] {
        assert_eq!(letters(number), "");
    }
    // The factors' letters make the target.
    let product = in_subgroup(&["SR", "SRSSR", "RS"], "SRSRSSRSSR");
    let words: Vec<_> = product
        .factors()
        .iter()
        .map(|&f| product.letters(f))
        .collect();
    assert_eq!(reduce(words.concat()).unwrap().word, "SRSRSSRSSR");
}

/// The largest list that the questions let pass, with 512 letters of inverses, and inverses of 120 letters each.
#[test]
fn the_largest_signed_tables() {
    let found = in_subgroup(&["SRSRS"; 64], "SSRSSRSS");
    assert_eq!(found.to_string(), "0^-1");
    let letters = |written| found.letters(SignedFactor::from_written(written));
    assert_eq!(
        (letters(63), letters(191)),
        ("SRSRS".into(), "SSRSSRSS".into())
    );
    assert_eq!((letters(64), letters(127)), (String::new(), String::new()));
    assert_eq!(
        subgroup_verdict(&["SRSRS"; 64], "SR".repeat(40), 1000),
        Ok(SubgroupVerdict::None { n: 1000 })
    );
    let found = in_subgroup(&vec!["SR".repeat(40); 4], "SR".repeat(40));
    assert_eq!(found.to_string(), "0");
    assert_eq!(found.letters(SignedFactor::from_written(131)).len(), 120);
}

#[test]
fn refused_subgroups() {
    let long = "SR".repeat(41);
    let asked = |list: &[&str], target: &str| refused(subgroup_verdict(list, target, 1001));
    assert_eq!(asked(&["x"; 65], "x"), (7, 0));
    assert_eq!(asked(&[&"R".repeat(4097)], "x"), (8, 0));
    assert_eq!(asked(&[&"R".repeat(70_000), "S"], "x"), (8, 0));
    assert_eq!(asked(&["x"], &"R".repeat(4097)), (8, 0));
    assert_eq!(asked(&["RS", "Sx"], &long), (10, 3));
    assert_eq!(asked(&["RS", "S"], "Rx"), (10, 4));
    assert_eq!(asked(&["R", &long], &long), (11, 1));
    assert_eq!(asked(&["SR".repeat(40).as_str(); 5], &long), (11, 4));
    assert_eq!(asked(&["R"], &long), (12, 0));
    assert_eq!(asked(&["R"], "R"), (13, 0));
    assert_eq!(refused(subgroup_verdict(&["R"], "R", u16::MAX)), (13, 0));
}

/// None of the three verdicts finds a product, the bounded ones for no n from 0 up.
fn none_by_all(list: &[&str], target: &str) -> bool {
    let for_no_n = [0, 1, 2, 7, 1000].into_iter().all(|n| {
        verdict(list, target, n) == Ok(Verdict::None { n })
            && subgroup_verdict(list, target, n) == Ok(SubgroupVerdict::None { n })
    });
    for_no_n && reachable(list, target) == Ok(false)
}

/// The quick no is given, and it is right.
fn no_at_once(list: &[&str], target: &str) -> bool {
    quick_no(list, target) == Ok(true) && none_by_all(list, target)
}

fn left_open(list: &[&str], target: &str) -> bool {
    quick_no(list, target) == Ok(false)
}

#[test]
fn quick_answers() {
    assert!(no_at_once(&["SR"], "R"));
    assert!(no_at_once(&["SR"], "SSR"));
    assert!(left_open(&["SR"], "SRSR"));
    // Modulo 7 the inverse of T is its 6th power, and U to the 7th is the unit, as T to the 7th is: both are open, though no product makes them.
    assert!(left_open(&["SR"], "RSS"));
    assert_eq!(verdict(&["SR"], "RSS", 1000), Ok(Verdict::None { n: 1000 }));
    assert_eq!(reachable(&["SR"], "RSS"), Ok(false));
    let power = "SSR".repeat(7);
    assert!(left_open(&["SR"], &power) && none_by_all(&["SR"], &power));
    assert!(left_open(&["SR"], ""));
    assert_eq!(reachable(&["SR"], ""), Ok(false));
    // Modulo 7, up to sign, T is the 4th power of its square: multiplied out, the letters of SRSR make T to the 2nd, and those of SR make -T.
    assert!(left_open(&["SRSR"], "SR") && none_by_all(&["SRSR"], "SR"));
    // A list without generators has no product, so not even the unit is one.
    assert!(no_at_once(&[], "") && no_at_once(&[], "RSSSR") && no_at_once(&[], "R"));
    // Generators that vanish, and an empty one.
    assert!(left_open(&["SSS"], "") && left_open(&[""], "RSSSR"));
    assert!(no_at_once(&["SSS"], "R") && no_at_once(&["", "RR"], "S"));
    // Products of one factor, of two, and of three.
    assert!(left_open(&["S"], "S") && left_open(&["S"], "SS") && left_open(&["S"], ""));
    assert!(no_at_once(&["S"], "R") && no_at_once(&["S"], "SR") && no_at_once(&["R"], "SS"));
    assert_eq!(quick_no(&[b"SR"], b"R"), Ok(true));
}

/// R and S make everything, so that none of the 168 images gets the no.
#[test]
fn open_to_every_target() {
    let mut letters = random_letters();
    for length in 0..=80 {
        let target: String = letters.by_ref().take(length).collect();
        assert!(left_open(&["R", "S"], &target));
    }
    assert!(left_open(&["R", "S"], &"SR".repeat(40)));
    assert!(left_open(&["R", "S"], &"S".repeat(4096)));
}

/// The matrices (a b; c d) of which 7 divides c are a subgroup, and these words generate it. Modulo 7 their products are the matrices with c = 0. So the quick
/// no is given exactly where 7 does not divide c; and where it does, the target is a member of the subgroup.
#[test]
fn a_subgroup_that_is_seen_modulo_7() {
    let list = ["SR", "RSRSRSRSSRSSR", "RSRSSRSRSRSSR"];
    let [u, inverse_of_u] = ["SSR", "RS"].map(|word| move |k| word.repeat(k));
    let inside = ["", "SR", "RSS", list[1], list[2], "RSRSRSSRSSRSSR"].map(String::from);
    let powers = [u(7), inverse_of_u(21), "SR".repeat(40)];
    for target in inside.iter().chain(&powers) {
        assert!(left_open(&list, target));
        in_subgroup(&list, target);
    }
    let outside = ["R", "S", "SS", "SRS", "RSR", "RSRSRSRSSRSS"].map(String::from);
    let powers = [u(1), u(6), u(26), inverse_of_u(20)];
    for target in outside.iter().chain(&powers) {
        assert!(no_at_once(&list, target));
    }
    // Random words, by their own matrices.
    let mut letters = random_letters();
    for length in (0..=80).cycle().take(810) {
        let target: String = letters.by_ref().take(length).collect();
        let [_, _, c, _] = word_to_matrix(&target).unwrap();
        assert_eq!(quick_no(&list, &target), Ok(c % 7 != 0));
    }
}

/// Each question with its place, and what just passes.
#[test]
fn refused_quick_answers() {
    let long = "SR".repeat(41);
    assert_eq!(refused(quick_no(&["x"; 65], "R".repeat(4097))), (7, 0));
    assert_eq!(refused(quick_no(&["R".repeat(4097)], "x")), (8, 0));
    assert_eq!(
        refused(quick_no(&["R".repeat(70_000), "S".into()], "x")),
        (8, 0)
    );
    assert_eq!(refused(quick_no(&["x"], "R".repeat(4097))), (8, 0));
    assert_eq!(refused(quick_no(&[&long, "Sx"], "x")), (10, 83));
    assert_eq!(refused(quick_no(&[&long, "S"], "Rx")), (10, 84));
    assert_eq!(refused(quick_no(&["R", &long], &long)), (11, 1));
    assert_eq!(refused(quick_no(&vec!["SR".repeat(40); 5], &long)), (11, 4));
    assert_eq!(refused(quick_no(&["R"], &long)), (12, 0));
    assert_eq!(refused(quick_no(&[""; 0], &long)), (12, 0));
    // One letter more than may be: of a generator, of all together, and of the target.
    let longest = "SR".repeat(40);
    let [one, more] = [&longest, &long[..81]];
    assert_eq!(refused(quick_no(&["", more], more)), (11, 1));
    assert_eq!(
        refused(quick_no(&[one, one, one, one, "", "S"], more)),
        (11, 5)
    );
    assert_eq!(refused(quick_no(&["R"], more)), (12, 0));

    assert!(left_open(&["SRSRS"; 64], "SRSRS"));
    let most = "R".repeat(4096);
    assert_eq!(quick_no(&[&longest; 4], &longest), Ok(false));
    assert_eq!(quick_no(&[&most], &most), Ok(false));
    assert_eq!(quick_no(&[&most], "R"), Ok(true));
}

#[test]
fn cards() {
    let card = b"\x0b\x03\x00\x06\x00SRSRSR\x01\x02\x00SR";
    assert_eq!(answer_card(card).unwrap(), member(&[0, 0, 0]));
    assert_eq!(refused(answer_card(&card[..15])), (3, 15));
    assert_eq!(refused(answer_card(b"")), (2, 0));
    assert_eq!(refused(answer_card(&[0; 8327])), (1, 0));
    assert_eq!(refused(answer_card(b"\x00R")), (4, 1));
    assert_eq!(
        answer_card(b"\x03\x02\x00\x01\x00R").unwrap(),
        Verdict::None { n: 2 }
    );
    // Without a target it is empty: the generator SSS, and no list.
    assert_eq!(answer_card(b"\x08\x01\x03\x00SSS").unwrap(), member(&[0]));
    assert_eq!(answer_card(b"\x00").unwrap(), Verdict::None { n: 1000 });
}

/// A long series in the room that the thread keeps, then a short one, then a refusal, and the first again.
#[test]
fn nothing_is_left_from_one_verdict_to_the_next() {
    let long = || verdict(&["SR", "R"], "SR".repeat(40), 1000).unwrap();
    assert_eq!(long(), member(&[0; 40]));
    assert_eq!(verdict(&["S"], "R", 7).unwrap(), Verdict::None { n: 7 });
    assert_eq!(
        answer_card(b"\x0a\x01\x00R\x01\x01\x00R").unwrap(),
        member(&[0])
    );
    assert_eq!(refused(verdict(&["S", "x"], "R", 7)), (10, 1));
    assert_eq!(reachable(&["S"], "SS"), Ok(true));
    assert_eq!(reachable(&["S"], "R"), Ok(false));
    assert_eq!(refused(reachable(&["S", "x"], "R")), (10, 1));
    assert_eq!(shown(&["S"], "SS"), "0^-1");
    assert_eq!(long(), member(&[0; 40]));
    assert_eq!(refused(subgroup_verdict(&["S", "x"], "R", 7)), (10, 1));
    assert_eq!(
        subgroup_verdict(&["S"], "R", 7),
        Ok(SubgroupVerdict::None { n: 7 })
    );
    assert_eq!(long(), member(&[0; 40]));
}

#[test]
fn several_threads() {
    thread::scope(|scope| {
        for k in 1..=8 {
            scope.spawn(move || {
                for _ in 0..50 {
                    let factors = vec![k % 2; k];
                    let list = [["SR", "RSS"], ["RSS", "SR"]][k % 2];
                    assert_eq!(verdict(&list, "SR".repeat(k), 8).unwrap(), member(&factors));
                    assert_eq!(
                        answer_card(&[3, k as u8, 0, 1, 0, b'R']).unwrap(),
                        Verdict::None { n: k as u16 }
                    );
                    assert_eq!(reachable(&["SRSR"], "SR".repeat(k)), Ok(k % 2 == 0));
                    assert_eq!(quick_no(&["SR".repeat(7)], "SR".repeat(k)), Ok(k != 7));
                    let found = in_subgroup(&["SR"], "RSS".repeat(k));
                    assert_eq!(found.written(), vec![128; k]);
                }
            });
        }
    });
}

/// A word that asks for a verdict when it is looked at.
struct Asking;

impl AsRef<[u8]> for Asking {
    fn as_ref(&self) -> &[u8] {
        assert_eq!(verdict(&["S"], "SS", 2).unwrap(), member(&[0, 0]));
        assert_eq!(shown(&["S"], "SS"), "0^-1");
        b"R"
    }
}

#[test]
fn a_verdict_in_the_midst_of_another() {
    assert_eq!(verdict(&[Asking, Asking], Asking, 5).unwrap(), member(&[0]));
    assert_eq!(in_subgroup(&[Asking, Asking], Asking).to_string(), "0");
}

/// Asks for a verdict and sends it when it is dropped.
struct Last(mpsc::Sender<Verdict>);

impl Drop for Last {
    fn drop(&mut self) {
        self.0.send(verdict(&["S"], "SS", 2).unwrap()).unwrap();
    }
}

/// Values of a thread are dropped when it ends, the newer ones first or last: the room it kept may be gone by then.
#[test]
fn a_verdict_while_a_thread_ends() {
    thread_local! {
        static BEFORE: RefCell<Option<Last>> = const { RefCell::new(None) };
        static AFTER: RefCell<Option<Last>> = const { RefCell::new(None) };
    }
    let (sender, receiver) = mpsc::channel();
    let ending = thread::spawn(move || {
        BEFORE.set(Some(Last(sender.clone())));
        verdict(&["S"], "SS", 2).unwrap();
        AFTER.set(Some(Last(sender)));
    });
    ending.join().unwrap();
    assert_eq!(
        receiver.iter().collect::<Vec<_>>(),
        vec![member(&[0, 0]); 2]
    );
}

#[test]
fn the_release_that_the_contract_says() {
    let (_, behind) = CONTRACTS.split_once("result ≡ release ").unwrap();
    let numbers: Vec<_> = behind.split_whitespace().take(3).collect();
    assert_eq!(version(), numbers.join("."));
}

#[test]
fn a_refusal_in_words() {
    let refusal = reduce("RSr").unwrap_err();
    assert_eq!(refusal.text(), "a letter is not R or S");
    assert_eq!(
        refusal.to_string(),
        "refused by question 10, place 2: a letter is not R or S"
    );
}

/// What is lent: a refusal leaves it, and a verdict leaves zeros in the front of the tables and the rest of everything.
#[test]
fn lent_slices() {
    let mut first = [7; 230];
    let mut second = [7; 226];
    let mut witness = [9; 5];
    // P11: q is 4 + 1 + 4 + 2 + 1 = 12.
    let judged = lent::judge(
        b"RSRSSSRSS",
        &[4, 5, 9],
        b"R",
        3,
        &mut first,
        &mut second,
        &mut witness,
    );
    assert_eq!(judged, Ok(lent::Judged::Member { count: 3 }));
    assert_eq!(witness, [0, 1, 2, 9, 9]);
    assert!(first[..144]
        .iter()
        .chain(&second[..144])
        .all(|&entry| entry == 0));
    assert!(first[144..]
        .iter()
        .chain(&second[144..])
        .all(|&entry| entry == 7));
    let falling = lent::judge(
        b"RS",
        &[2, 1],
        b"R",
        3,
        &mut first,
        &mut second,
        &mut witness,
    );
    assert_eq!(refused(falling), (9, 1));
    assert_eq!(witness, [0, 1, 2, 9, 9]);
    let mut out = [b'x'; 4];
    let reduced = lent::Reduced {
        length: 2,
        pairs: 1,
        triples: 0,
    };
    assert_eq!(lent::reduce(b"SRRS", &mut out), Ok(reduced));
    assert_eq!(&out, b"SSxx");
    assert_eq!(refused(lent::reduce(b"RRSSS", &mut out)), (14, 0));
    assert_eq!(refused(lent::invert(b"SRR", &mut out)), (14, 0));
    assert_eq!(&out, b"SSxx");
}

/// What is lent without a bound: list SR, where q is 15 for both targets.
#[test]
fn lent_slices_without_a_bound() {
    let all_are = |table: &[u16], value| table.iter().all(|&entry| entry == value);
    for (target, answer) in [(b"SRSRSR", true), (b"RSSRSS", false)] {
        let mut first = [7; 226];
        let mut second = [7; 230];
        let (short, enough) = (224, 225);
        for (one, other) in [(short, enough), (enough, short)] {
            let lent = (&mut first[..one], &mut second[..other]);
            let refusal = lent::reachable(b"SR", &[2], target, lent.0, lent.1);
            assert_eq!(refused(refusal), (15, 0));
        }
        for (ends, place) in [(&[2, 1][..], 1), (&[1], 1), (&[], 0)] {
            let refusal = lent::reachable(b"SR", ends, target, &mut first, &mut second);
            assert_eq!(refused(refusal), (9, place));
        }
        assert!(all_are(&first, 7) && all_are(&second, 7));
        let reached = lent::reachable(b"SR", &[2], target, &mut first, &mut second);
        assert_eq!(reached, Ok(answer));
        assert!(all_are(&first[..225], 0) && all_are(&first[225..], 7));
        assert!(all_are(&second[..225], 0) && all_are(&second[225..], 7));
    }
    let (mut first, mut second) = ([7], [7]);
    assert_eq!(
        refused(lent::reachable(b"", &[], b"", &mut first, &mut [])),
        (15, 0)
    );
    assert_eq!(
        lent::reachable(b"", &[], b"", &mut first, &mut second),
        Ok(false)
    );
    assert_eq!((first, second), ([0], [0]));
}

/// What is lent for a subgroup: list SR, whose inverse is RSS, with target SRSR, where q is 2 + 3 + 8 + 1 = 14.
#[test]
fn lent_slices_for_a_subgroup() {
    let mut first = [7; 198];
    let mut second = [7; 197];
    let mut witness = [9; 4];
    let mut inverses = [b'x'; 641];
    let mut asked = |ends: &[u16], n: u16, [one, other, room, inverse_room]: [usize; 4]| {
        lent::judge_subgroup(
            b"SR",
            ends,
            b"SRSR",
            n,
            &mut first[..one],
            &mut second[..other],
            &mut witness[..room],
            &mut inverses[..inverse_room],
        )
    };
    assert_eq!(refused(asked(&[1], 3, [0, 0, 0, 0])), (9, 1));
    assert_eq!(refused(asked(&[2], 1001, [0, 0, 0, 0])), (13, 0));
    assert_eq!(refused(asked(&[2], 3, [0, 0, 2, 640])), (14, 0));
    assert_eq!(refused(asked(&[2], 3, [0, 0, 3, 639])), (14, 0));
    assert_eq!(refused(asked(&[2], 3, [195, 196, 3, 640])), (15, 0));
    assert_eq!(refused(asked(&[2], 3, [196, 195, 3, 640])), (15, 0));
    assert!(first.iter().chain(&second).all(|&entry| entry == 7));
    assert_eq!(witness, [9; 4]);
    assert_eq!(inverses, [b'x'; 641]);

    let verdicts = [
        (3, lent::Judged::Member { count: 2 }, [0, 0, 9, 9]),
        (1, lent::Judged::None { n: 1 }, [9; 4]),
        (0, lent::Judged::None { n: 0 }, [9; 4]),
    ];
    for (n, expected, factors) in verdicts {
        first.fill(7);
        second.fill(7);
        witness.fill(9);
        inverses.fill(b'x');
        let judged = lent::judge_subgroup(
            b"SR",
            &[2],
            b"SRSR",
            n,
            &mut first,
            &mut second,
            &mut witness,
            &mut inverses,
        );
        assert_eq!(judged, Ok(expected));
        assert_eq!(witness, factors);
        for table in [&first[..], &second] {
            let (zeros, rest) = table.split_at(196);
            assert!(zeros.iter().all(|&entry| entry == 0));
            assert!(rest.iter().all(|&entry| entry == 7));
        }
        assert_eq!(&inverses[..3], b"RSS");
        assert!(inverses[3..].iter().all(|&byte| byte == b'x'));
    }
}

/// The part of a factor follows from the list alone; it is empty, and of the given slice, where a question is answered no or the list has no such factor.
#[test]
fn lent_letters_of_factors() {
    let inverses = [b'x'; lent::INVERSES];
    let given = b"SRS";
    let letters = |ends: &[u16], number| lent::letters_of(given, ends, &inverses, number);
    assert_eq!(letters(&[2, 3], 0), b"SR");
    assert_eq!(letters(&[2, 3], 1), b"S");
    assert_eq!(letters(&[2, 3], 1).as_ptr(), given[2..].as_ptr());
    assert_eq!(
        letters(&[2, 3], 128).as_ptr_range(),
        inverses[..3].as_ptr_range()
    );
    assert_eq!(
        letters(&[2, 3], 129).as_ptr_range(),
        inverses[3..5].as_ptr_range()
    );
    let nothing = |part: &[u8]| part.as_ptr_range() == given[..0].as_ptr_range();
    for number in [2, 64, 127, 130, 192, 255] {
        assert!(nothing(letters(&[2, 3], number)));
    }
    for number in [0, 1, 128, 129] {
        for ends in [&[3; 65][..], &[2, 1], &[2, 4], &[]] {
            assert!(nothing(letters(ends, number)));
        }
        for room in [0, lent::INVERSES - 1] {
            let part = lent::letters_of(given, &[2, 3], &inverses[..room], number);
            assert!(nothing(part));
        }
        let long = "SR".repeat(41);
        for (word, end) in [("SRx", 3), (&long, 82)] {
            let part = lent::letters_of(word.as_bytes(), &[0, end], &inverses, number);
            assert!(part.is_empty() && part.as_ptr() == word.as_ptr());
        }
    }
    assert_eq!(lent::letters_of(b"", &[], &inverses, 0), b"");
}

/// The quick answer is lent letters and ends only.
#[test]
fn a_lent_list_and_target() {
    assert_eq!(lent::quick_no(b"SR", &[2], b"R"), Ok(true));
    assert_eq!(lent::quick_no(b"SR", &[2], b"RSS"), Ok(false));
    assert_eq!(lent::quick_no(b"SR", &[1, 2], b"RSS"), Ok(false));
    assert_eq!(lent::quick_no(b"", &[], b""), Ok(true));
    assert_eq!(lent::quick_no(b"", &[0], b""), Ok(false));
    for (ends, place) in [
        (&[2, 1][..], 1),
        (&[1, 2, 0], 2),
        (&[1], 1),
        (&[3], 1),
        (&[], 0),
    ] {
        assert_eq!(refused(lent::quick_no(b"Sx", ends, b"x")), (9, place));
    }
    assert_eq!(refused(lent::quick_no(b"Sx", &[3; 65], b"x")), (7, 0));
    assert_eq!(refused(lent::quick_no(&[b'x'; 4097], &[1], b"x")), (8, 0));
    assert_eq!(refused(lent::quick_no(b"Sx", &[1, 2], b"x")), (10, 1));
    assert_eq!(refused(lent::quick_no(b"SR", &[1, 2], b"SxR")), (10, 3));
}
