//! The desk's rule, by a plain second writing (document 02, E3; EN 300 744, 4.6.2.4 and 4.6.2.10): orion-sdr has no desk. Nothing is held between words:
//! every answer is read off the last four words that were handed in.

use crate::refusals::{MISMATCH, OUT_OF_STEP};

/// A word by its fields: the frame's number, the codes of constellation, rate and guard, and the byte of the cell id.
pub type Word = [u8; 5];

/// What is said of a word that isn't refused: a super-frame's cell id and the codes of its parameters where it completes one.
pub type Complete = Option<(u16, [u8; 3])>;

/// The parameters of a word.
fn parameters([_, constellation, rate, guard, _]: Word) -> [u8; 3] {
    [constellation, rate, guard]
}

/// Whether words are the first ones of a super-frame.
fn begins(words: &[Word]) -> bool {
    words.len() <= 4
        && words.iter().enumerate().all(|(place, word)| {
            usize::from(word[0]) == place && parameters(*word) == parameters(words[0]) && (place < 2 || word[4] == words[place - 2][4])
        })
}

/// How many of the last words are the first ones of a super-frame, short of a whole one.
pub fn gathered(words: &[Word]) -> usize {
    (1..4).find(|count| *count <= words.len() && begins(&words[words.len() - count..])).unwrap_or(0)
}

/// What is answered to the last of these words.
pub fn answer(words: &[Word]) -> Result<Complete, u8> {
    let (last, before) = words.split_last().expect("a word was handed in");
    let number = gathered(before);
    let all = &words[before.len() - number..];
    match all {
        _ if usize::from(last[0]) != number => Err(OUT_OF_STEP),
        _ if !begins(all) => Err(MISMATCH),
        [first, second, _, _] => Ok(Some((u16::from_be_bytes([first[4], second[4]]), parameters(*first)))),
        _ => Ok(None),
    }
}

/// What a desk holds behind these words: the number that is wanted, the high and the low byte, and the codes of the parameters.
pub fn held(words: &[Word]) -> [u8; 6] {
    let last = &words[words.len() - gathered(words)..];
    let byte = |place: usize| last.get(place).map_or(0, |word| word[4]);
    let [constellation, rate, guard] = last.first().map_or([0; 3], |word| parameters(*word));
    [last.len() as u8, byte(0), byte(1), constellation, rate, guard]
}
