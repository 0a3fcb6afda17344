//! The image of a table, as a program keeps it between two runs.

use ticket_archive::*;

/// Ids of tenants 0 and 4.
const IDS: [u32; 3] = [1001, 1002, 626_627_286];

/// What the destination holds before an image is written to it.
const UNSTORED: u32 = 0x5555_5555;

/// Three servers of four entries, three ids written, one of them twice, and one looked up.
fn written(medium: &mut [u32]) -> Archive<'_> {
    let mut archive = Archive::start(4, 12345, medium).expect("in range");
    for weight in [1, 0, 2] {
        archive.add_server(weight).expect("blank");
    }
    for (id, value) in IDS.into_iter().zip([250, 500, 75]) {
        archive.write(tenant_of(id), id, value).expect("room");
    }
    archive.write(0, IDS[0], 300).expect("room");
    archive.lookup(0, IDS[0]).expect("written");
    archive
}

/// The image in a run of its own length.
fn image_of(archive: &Archive) -> Vec<u32> {
    let mut image = vec![UNSTORED; MAX_IMAGE_WORDS];
    let length = archive.image(&mut image).expect("sound");
    image.truncate(length);
    image
}

fn counters(archive: &Archive) -> Vec<Option<u32>> {
    (0..TENANTS).map(|tenant| archive.counter(tenant)).collect()
}

type Answers = (Vec<Result<Found, Missed>>, Result<Written, Refusal>);

/// Lookups of every id and of one that is absent, and a write.
fn goes_on(archive: &mut Archive) -> Answers {
    let ids = IDS.into_iter().chain([1003]);
    let found = ids.map(|id| archive.lookup(tenant_of(id), id)).collect();
    (found, archive.write(4, IDS[2], 80))
}

#[test]
fn an_archive_goes_on_from_its_image() {
    let mut medium = vec![BLANK; 3 * server_words(4)];
    let archive = written(&mut medium);
    let image = image_of(&archive);
    assert_eq!(image.len(), image_words(3));
    let (table, before) = (*archive.table(), counters(&archive));
    assert_ne!(archive.counter(0), Some(0));

    let mut other_medium = medium.clone();
    let mut other = Archive::from_words(table, &mut other_medium);
    let mut archive = Archive::from_image(&image, &mut medium).expect("an image");
    assert_eq!(*archive.table(), table);
    assert_eq!(counters(&archive), before);
    let answers = goes_on(&mut archive);
    assert_eq!(answers.0[0].map(|found| found.value), Ok(300));
    assert_eq!(
        answers.0[3].map_err(|missed| missed.refusal),
        Err(Refusal::NotFound)
    );
    assert_eq!(answers, goes_on(&mut other));
    assert_eq!(counters(&archive), counters(&other));
    assert_ne!(counters(&archive), before);
    assert_eq!(archive.medium(), other.medium());
}

#[test]
fn an_image_has_these_words() {
    let mut medium = [BLANK; 6];
    let mut archive = Archive::start(1, 12345, &mut medium).expect("in range");
    let [one, two] = [1 << 30, 2 << 30];
    let mut expected = vec![1, one + 12345];
    expected.extend([two; 8]);
    assert_eq!(image_of(&archive), expected);
    archive.add_server(1).expect("blank");
    archive.add_server(1).expect("blank");
    archive.lookup(4, IDS[2]).expect_err("absent");
    let opened = archive.counter(4).expect("a tenant");
    let mut expected = vec![1, one + 12345, one + 1, two, 1, one + 1];
    expected.extend([one + 1, two, 1, one + 2]);
    expected.extend([two, two, two, two, two + opened, two, two, two]);
    assert_eq!(image_of(&archive), expected);
}

#[test]
fn words_above_the_count_are_not_in_it() {
    let mut medium = vec![BLANK; 3 * server_words(4)];
    let archive = written(&mut medium);
    let (image, table) = (image_of(&archive), *archive.table());
    let mut other = table;
    // The parts of a table begin at word 3 and have 256 words each; this one has three servers.
    for part in 0..4 {
        other[3 + 256 * part + 3..][..253].fill(UNSTORED);
    }
    let archive = Archive::from_words(other, &mut medium);
    assert_eq!(image_of(&archive), image);
    let archive = Archive::from_image(&image, &mut medium).expect("an image");
    assert_eq!(*archive.table(), table);
}

#[test]
fn other_words_are_refused() {
    let mut medium = vec![BLANK; 3 * server_words(4)];
    let image = image_of(&written(&mut medium));
    let mut refusal = |words: &[u32]| Archive::from_image(words, &mut medium).err();
    for at in 0..image.len() {
        let mut words = image.clone();
        words[at] ^= 3 << 30;
        assert_eq!(refusal(&words), Some(Refusal::BadImage), "word {at}");
    }
    for length in 0..image.len() {
        assert_eq!(refusal(&image[..length]), Some(Refusal::BadImage));
    }
    let longer = [&image[..], &[0]].concat();
    assert_eq!(refusal(&longer), Some(Refusal::BadImage));
    // Server 0 has weight 5 of 4.
    let mut words = image.clone();
    words[2] = 1 << 30 | 5;
    assert_eq!(refusal(&words), Some(Refusal::BadImage));
    assert_eq!(refusal(&image), None);
    // Another counter makes another image.
    let mut words = image.clone();
    words[image.len() - 1] += 7;
    let archive = Archive::from_image(&words, &mut medium).expect("an image");
    assert_eq!(archive.counter(7), Some(7));
}

#[test]
fn a_short_destination_keeps_its_content() {
    let mut medium = vec![BLANK; 3 * server_words(4)];
    let archive = written(&mut medium);
    let image = image_of(&archive);
    for room in [0, 1, image.len() - 1] {
        let mut destination = vec![UNSTORED; room];
        let refused = archive.image(&mut destination);
        assert_eq!(refused, Err(Refusal::ShortDestination));
        assert_eq!(destination, vec![UNSTORED; room]);
    }
    let mut destination = vec![UNSTORED; image.len() + 2];
    assert_eq!(archive.image(&mut destination), Ok(image.len()));
    assert_eq!(destination, [&image[..], &[UNSTORED, UNSTORED]].concat());
}

#[test]
fn an_unsound_table_has_no_image() {
    let mut table = [0; TABLE_WORDS];
    table[0] = 1;
    table[TABLE_COUNTERS] = MAX_COUNTER + 1;
    let archive = Archive::from_words(table, &mut []);
    let mut destination = [UNSTORED; MAX_IMAGE_WORDS];
    for room in [0, MAX_IMAGE_WORDS] {
        let refused = archive.image(&mut destination[..room]);
        assert_eq!(refused, Err(Refusal::UnsoundTable));
    }
    assert_eq!(destination, [UNSTORED; MAX_IMAGE_WORDS]);
}
