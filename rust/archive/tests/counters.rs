//! The counters of a table, as a program reads them.

use ticket_archive::*;

/// An id of tenant 4.
const ID: u32 = 626_627_286;

fn counters(archive: &Archive) -> Vec<u32> {
    (0..TENANTS)
        .map(|tenant| archive.counter(tenant).expect("a tenant"))
        .collect()
}

#[test]
fn a_lookup_counts_for_the_tenant_that_makes_it() {
    let mut medium = [BLANK; 6];
    let mut archive = Archive::start(1, 0, &mut medium).expect("in range");
    archive.add_server(1).expect("blank");
    assert_eq!(counters(&archive), [0; 8]);
    archive.write(4, ID, 75).expect("room");
    assert_eq!(counters(&archive), [0; 8]);
    assert_eq!(archive.lookup(4, ID).map(|found| found.opened), Ok(1));
    assert_eq!(archive.counter(4), Some(1));
    let missed = archive.lookup(4, ID + 1).expect_err("absent");
    assert_eq!((missed.refusal, missed.opened), (Refusal::NotFound, 1));
    assert_eq!(archive.counter(4), Some(2));
    let other = archive.lookup(3, ID).expect_err("another's");
    assert_eq!((other.refusal, other.opened), (Refusal::OtherTenant, 0));
    assert_eq!(counters(&archive), [0, 0, 0, 0, 2, 0, 0, 0]);
    assert_eq!(archive.table()[TABLE_COUNTERS + 4], 2);
    assert_eq!(archive.counter(TENANTS), None);
    assert_eq!(archive.counter(u32::MAX), None);
}

#[test]
fn a_damaged_value_is_counted() {
    let mut medium = [BLANK; 3];
    let mut archive = Archive::start(1, 0, &mut medium).expect("in range");
    archive.add_server(1).expect("blank");
    archive.write(4, ID, 75).expect("room");
    let table = *archive.table();
    medium[1] = BLANK;
    let mut archive = Archive::from_words(table, &mut medium);
    let missed = archive.lookup(4, ID).expect_err("damaged");
    assert_eq!((missed.refusal, missed.opened), (Refusal::Corrupt, 1));
    assert_eq!(archive.counter(4), Some(1));
}

#[test]
fn a_batch_counts_what_its_lookups_would() {
    let mut medium = [BLANK; 3];
    let mut archive = Archive::start(1, 0, &mut medium).expect("in range");
    archive.add_server(1).expect("blank");
    archive.write(4, ID, 75).expect("room");
    let batch = archive.lookup_batch(4, &[ID, 1001, ID, ID + 1]);
    assert_eq!(batch.expect("four ids").mounts, 1);
    assert_eq!(counters(&archive), [0, 0, 0, 0, 3, 0, 0, 0]);
    let refused = archive.lookup_batch(4, &[ID; MAX_IDS + 1]);
    assert_eq!(refused, Err(Refusal::OutOfRange));
    assert_eq!(archive.counter(4), Some(3));
}

#[test]
fn a_counter_stops_and_none_is_above() {
    let mut medium = [BLANK; 3];
    let mut archive = Archive::start(1, 0, &mut medium).expect("in range");
    archive.add_server(1).expect("blank");
    let mut table = *archive.table();
    table[TABLE_COUNTERS + 7] = MAX_COUNTER;
    table[TABLE_COUNTERS + 4] = MAX_COUNTER - 1;
    let mut archive = Archive::from_words(table, &mut medium);
    for _ in 0..3 {
        archive.lookup(4, ID).expect_err("absent");
        assert_eq!(archive.counter(4), Some(MAX_COUNTER));
    }
    assert_eq!(archive.counter(7), Some(MAX_COUNTER));
    table[TABLE_COUNTERS + 7] = MAX_COUNTER + 1;
    let mut archive = Archive::from_words(table, &mut medium);
    let missed = archive.lookup(4, ID).expect_err("a counter above");
    assert_eq!(missed.refusal, Refusal::UnsoundTable);
    assert_eq!(*archive.table(), table);
}
