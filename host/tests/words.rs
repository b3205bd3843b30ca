//! The refusals in words: document 01's, in Rust and in the C header alike.

use charkhavo_host::limits::{self, PLACES, WORDS};
use charkhavo_host::refusal::{limited, sentence, TABLE};
use charkhavo_host::Refusal;
use std::fs;

#[test]
fn each_number_of_document_01_has_a_sentence_and_no_other() {
    let numbers: Vec<u32> = TABLE.iter().map(|(number, _)| *number).collect();
    let expected: Vec<u32> = (1..=12).chain(21..=26).chain(30..=38).chain([40]).collect();
    assert_eq!(numbers, expected);
    for number in 0..100 {
        assert_eq!(sentence(number).is_some(), expected.contains(&number));
    }
}

#[test]
fn the_limit_is_told_in_figures() {
    let words = sentence(2).unwrap();
    assert_eq!(words, "0 bytes, not a multiple of 4, or over 8,972");
    let words = Refusal::LONG_ANSWER.to_string();
    assert_eq!(words, "refused 10 at 0: the answer with all commands OK would pass 2,243 words");
    let words = Refusal::BYTE_0.at_word(12).to_string();
    assert_eq!(words, "refused 4 at 12: byte 0 differs from the first header's");
    assert!(TABLE.iter().all(|(number, _)| !sentence(*number).unwrap().contains('{')));
}

#[test]
fn the_header_has_the_limits_and_each_number_and_its_sentence() {
    let header = concat!(env!("CARGO_MANIFEST_DIR"), "/../include/charkhavo.h");
    let header = fs::read_to_string(header).expect("the header");
    let header = header.split_whitespace().collect::<Vec<&str>>().join(" ");
    assert!(header.contains(&format!("#define CHARKHAVO_WORDS {WORDS} ")));
    assert!(header.contains(&format!("#define CHARKHAVO_PLACES {PLACES} ")));
    assert!(header.contains(&format!("#define CHARKHAVO_TABLE_WORDS {} ", limits::TABLE)));
    assert!(header.contains(&format!("#define CHARKHAVO_ROWS_WORDS {} ", 7 * limits::ROWS)));
    for (number, words) in TABLE {
        let words = limited(words, "CHARKHAVO_WORDS", "CHARKHAVO_BYTES");
        let said = format!("/* {words} */ #define CHARKHAVO_REFUSED_");
        let (_, after) = header.split_once(&said).expect(&said);
        let value = after.split(' ').nth(1);
        assert_eq!(value, Some(format!("UINT32_C({number})").as_str()), "{said}");
    }
}
