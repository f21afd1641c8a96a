//! All words up to a length.

/// The words of at most so many letters, shorter ones first.
pub fn up_to(letters: usize) -> Vec<Vec<u8>> {
    let mut words = vec![Vec::new()];
    let mut from = 0;
    for _ in 0..letters {
        let until = words.len();
        for at in from..until {
            for letter in *b"RS" {
                let mut longer = words[at].clone();
                longer.push(letter);
                words.push(longer);
            }
        }
        from = until;
    }
    words
}
