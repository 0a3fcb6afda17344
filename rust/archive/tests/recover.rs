//! A write and a delete that are cut off, and recover.

use ticket_archive::{server_words, tenant_of, Archive, Missed, Refusal, BLANK};

const CAPACITY: u32 = 4;
const ID: u32 = 626_627_286;

/// The table and the medium of document 01's example after its second write, which marked the first.
fn example() -> ([u32; ticket_archive::TABLE_WORDS], Vec<u32>) {
    let mut medium = vec![BLANK; 3 * server_words(CAPACITY)];
    let mut archive = Archive::start(CAPACITY, 0, &mut medium).expect("in range");
    for weight in [1, 0, 2] {
        archive.add_server(weight).expect("room");
    }
    archive.write(tenant_of(ID), ID, 500).expect("room");
    let table = *archive.table();
    (table, medium)
}

fn value(archive: &mut Archive) -> Result<u32, Refusal> {
    let found = archive.lookup(tenant_of(ID), ID);
    found
        .map(|found| found.value)
        .map_err(|Missed { refusal, .. }| refusal)
}

#[test]
fn a_write_shows_at_its_last_burn_only() {
    let (table, medium) = example();
    // The next write goes to server 0, and the old entry is on server 2: value, id, mark.
    for (burns, shown) in [
        (0, 500),
        (1, 500),
        (2, 500),
        (3, 740),
        (4, 740),
        (u32::MAX, 740),
    ] {
        let mut words = medium.clone();
        let mut archive = Archive::from_words(table, &mut words);
        archive.reweight(0, 2).expect("free");
        let before = *archive.table();
        let written = archive.write_some(tenant_of(ID), ID, 740, burns);
        let written = written.expect("room");
        assert_eq!((written.server, written.invalidated), (0, 1));
        assert_eq!(*archive.table() == before, burns < 3);
        archive.recover().expect("sound");
        assert_eq!(
            archive.table()[259],
            u32::from(burns > 0),
            "used of server 0"
        );
        assert_eq!(value(&mut archive), Ok(shown), "with {burns} burns");
    }
}

#[test]
fn a_delete_shows_at_its_last_burn_only() {
    let (table, medium) = example();
    for (burns, shown) in [(0, Ok(500)), (1, Err(Refusal::NotFound))] {
        let mut words = medium.clone();
        let mut archive = Archive::from_words(table, &mut words);
        assert_eq!(archive.delete_some(tenant_of(ID), ID, burns), Ok(1));
        archive.recover().expect("sound");
        assert_eq!(*archive.table(), table);
        assert_eq!(value(&mut archive), shown);
    }
}

#[test]
fn an_entry_of_junk_alone_stays_used() {
    let (table, mut medium) = example();
    medium[1] = 3 << 30;
    let mut archive = Archive::from_words(table, &mut medium);
    archive.recover().expect("sound");
    assert_eq!(archive.table()[259..262], [1, 0, 1]);
    assert_eq!(value(&mut archive), Ok(500));
}

#[test]
fn recover_refuses_no_table_and_too_few_words() {
    let (table, mut medium) = example();
    let mut zeros = Archive::from_words([0; ticket_archive::TABLE_WORDS], &mut medium);
    assert_eq!(zeros.recover(), Err(Refusal::UnsoundTable));
    medium.pop();
    let mut short = Archive::from_words(table, &mut medium);
    assert_eq!(short.recover(), Err(Refusal::ShortMedium));
    assert_eq!(*short.table(), table);
}
