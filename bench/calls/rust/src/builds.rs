//! Texts that are built of words, or of characters, and then shared.
use crate::data::{text, DEVIL};
use crate::{timed, Taken};
use bytes_utils::{Str, StrMut};

fn built_of_words(words: &[&str]) -> Str {
    let mut text = StrMut::new();
    for word in words {
        text.push_str(word);
    }
    text.freeze()
}

fn built_of_characters(characters: &[char]) -> Str {
    let mut text = StrMut::new();
    for character in characters {
        text.push(*character);
    }
    text.freeze()
}

/// One time of a work on the pieces of a text of `size` bytes.
pub fn time(work: &str, size: usize) -> Taken {
    let text = text(size, &[DEVIL]);
    if work == "push_str" {
        let words: Vec<&str> = text.split(DEVIL).collect();
        return timed(&words[..], built_of_words, |built| (words.len(), built.len()));
    }
    let characters: Vec<char> = text.chars().collect();
    timed(&characters[..], built_of_characters, |built| (characters.len(), built.len()))
}
