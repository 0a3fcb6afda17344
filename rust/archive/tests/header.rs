//! The numbers of include/archive.h, those of this crate and those of the library are the same.

use ticket_archive::*;

const HEADER: &str = include_str!("../../../include/archive.h");

/// A number as C has it: in base ten or sixteen, with or without the suffix of unsigned ones.
fn number(text: &str) -> u64 {
    let digits = text.trim_end_matches('u');
    match digits.strip_prefix("0x") {
        Some(digits) => u64::from_str_radix(digits, 16),
        None => digits.parse(),
    }
    .unwrap_or_else(|_| panic!("{text} is no number"))
}

/// Each constant of the header, without the front of its name. A macro with arguments is no constant.
fn defined() -> Vec<(&'static str, u64)> {
    let lines = HEADER
        .lines()
        .filter_map(|line| line.strip_prefix("#define ARCHIVE_"));
    let constants = lines.filter_map(|line| {
        let mut words = line.split_whitespace();
        let name = words.next().filter(|name| !name.contains('('))?;
        Some((name, number(words.next()?)))
    });
    constants.collect()
}

/// The same by this crate, in the order of the header.
const OURS: [(&str, u64); 44] = [
    ("ABI", ABI as u64),
    ("TABLE_WORDS", TABLE_WORDS as u64),
    ("CALL_WORDS", CALL_WORDS as u64),
    ("REPLY_WORDS", REPLY_WORDS as u64),
    ("BLANK", BLANK as u64),
    ("MAX_SERVERS", MAX_SERVERS as u64),
    ("MAX_CAPACITY", MAX_CAPACITY as u64),
    ("MAX_IDS", MAX_IDS as u64),
    ("CONTENT_RANGE", CONTENT_RANGE as u64),
    ("TENANTS", TENANTS as u64),
    ("TABLE_COUNTERS", TABLE_COUNTERS as u64),
    ("MAX_COUNTER", MAX_COUNTER as u64),
    ("MAX_IMAGE_WORDS", MAX_IMAGE_WORDS as u64),
    ("ADD_SERVER", call::ADD_SERVER as u64),
    ("REWEIGHT", call::REWEIGHT as u64),
    ("WRITE", call::WRITE as u64),
    ("DELETE", call::DELETE as u64),
    ("LOOKUP", call::LOOKUP as u64),
    ("CALL_NUMBER", call::NUMBER as u64),
    ("CALL_TENANT", call::TENANT as u64),
    ("CALL_SUBJECT", call::SUBJECT as u64),
    ("CALL_AMOUNT", call::AMOUNT as u64),
    ("CALL_BURNS", call::BURNS as u64),
    ("REPLY_REFUSAL", reply::REFUSAL as u64),
    ("REPLY_SERVER", reply::SERVER as u64),
    ("REPLY_VALUE", reply::VALUE as u64),
    ("REPLY_OPENED", reply::OPENED as u64),
    ("REPLY_INVALIDATED", reply::INVALIDATED as u64),
    ("ACCEPTED", ACCEPTED as u64),
    ("UNSOUND_TABLE", Refusal::UnsoundTable as u64),
    ("OUT_OF_RANGE", Refusal::OutOfRange as u64),
    ("NO_SUCH_SERVER", Refusal::NoSuchServer as u64),
    ("TOO_MANY_SERVERS", Refusal::TooManyServers as u64),
    ("SHORT_MEDIUM", Refusal::ShortMedium as u64),
    ("SERVER_FULL", Refusal::ServerFull as u64),
    ("NOT_BLANK", Refusal::NotBlank as u64),
    ("NOT_FOUND", Refusal::NotFound as u64),
    ("EXCEEDS_FREE", Refusal::ExceedsFree as u64),
    ("CORRUPT", Refusal::Corrupt as u64),
    ("OTHER_TENANT", Refusal::OtherTenant as u64),
    ("BAD_IMAGE", Refusal::BadImage as u64),
    ("SHORT_DESTINATION", Refusal::ShortDestination as u64),
    ("SHORT", SHORT as u64),
    ("NO_CALL", NO_CALL as u64),
];

#[test]
fn the_header_has_the_numbers_of_the_crate() {
    assert_eq!(defined(), OURS);
}

#[test]
fn a_server_has_as_many_words() {
    let line = "#define ARCHIVE_SERVER_WORDS(capacity) ((size_t)3 * (size_t)(capacity))";
    assert!(HEADER.lines().any(|other| other == line));
    assert_eq!(server_words(100), 300);
}

#[test]
fn an_image_has_as_many_words() {
    let line = "#define ARCHIVE_IMAGE_WORDS(count) ((size_t)10 + (size_t)4 * (size_t)(count))";
    assert!(HEADER.lines().any(|other| other == line));
    assert_eq!([0, 1, 3].map(image_words), [10, 14, 22]);
    assert_eq!(image_words(MAX_SERVERS), MAX_IMAGE_WORDS);
    assert_eq!(MAX_IMAGE_WORDS, 1_034);
}

#[test]
fn an_id_has_its_tenant() {
    let line = "#define ARCHIVE_TENANT_OF(id) ((uint32_t)(id) >> 27)";
    assert!(HEADER.lines().any(|other| other == line));
    let ids = [0, (1 << 27) - 1, 1 << 27, 626_627_286, CONTENT_RANGE - 1];
    assert_eq!(ids.map(tenant_of), [0, 0, 1, 4, TENANTS - 1]);
    assert_eq!(tenant_of(CONTENT_RANGE), TENANTS);
}

#[test]
fn a_salt_is_in_range_and_kept() {
    let started = |salt| {
        let mut medium = [BLANK; 3];
        let archive = Archive::start(1, salt, &mut medium)?;
        Ok(archive.table()[..3].to_vec())
    };
    let last = CONTENT_RANGE - 1;
    assert_eq!(started(last), Ok(vec![1, last, 0]));
    assert_eq!(started(CONTENT_RANGE), Err(Refusal::OutOfRange));
}

#[test]
fn the_library_has_the_numbers_of_the_crate() {
    assert_eq!(functions::abi(), ABI);
    assert_eq!(functions::table_words(), TABLE_WORDS);
}

#[test]
fn every_refusal_has_its_number() {
    let numbers: Vec<u32> = (0..=14)
        .chain([SHORT, NO_CALL])
        .filter_map(Refusal::from_number)
        .map(|refusal| refusal as u32)
        .collect();
    assert_eq!(numbers, (1..=13).collect::<Vec<u32>>());
}
