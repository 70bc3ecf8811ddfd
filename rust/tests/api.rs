//! What the crate answers for the stored packets, at the ends of what can be lent to it, and on refusals.

#[path = "api/extended.rs"]
mod extended;
#[path = "api/present.rs"]
mod present;
#[path = "api/values.rs"]
mod values;
#[path = "api/walk.rs"]
mod walk;
#[path = "api/withdrawn.rs"]
mod withdrawn;
#[path = "api/writing.rs"]
mod writing;

use oysterknoll::*;
use std::fs;
use std::path::{Path, PathBuf};

/// A folder of the repository.
fn folder(name: &str) -> PathBuf {
    Path::new(env!("CARGO_MANIFEST_DIR")).join("..").join(name)
}

fn sample(name: &str) -> Vec<u8> {
    fs::read(folder("samples").join(name).with_extension("klv")).unwrap()
}

/// The packets of a folder, each with the listing beside it.
fn listed(name: &str) -> Vec<(Vec<u8>, String)> {
    let files = fs::read_dir(folder(name))
        .unwrap()
        .map(|file| file.unwrap().path());
    let packets = files.filter(|file| file.extension().is_some_and(|kind| kind == "klv"));
    let with_listing = |file: PathBuf| {
        let listing = fs::read_to_string(file.with_extension("txt")).unwrap();
        (fs::read(file).unwrap(), listing)
    };
    packets.map(with_listing).collect()
}

/// Number, place and tag.
fn parts(refusal: Refusal) -> (u64, usize, u64) {
    (refusal.number(), refusal.place, refusal.tag)
}

/// What is refused, as number, place and tag.
fn refused<T: std::fmt::Debug>(answer: Result<T, Refusal>) -> (u64, usize, u64) {
    parts(answer.unwrap_err())
}

/// The listing as the listing program prints it, a refusal as its one line.
fn listing(packet: &[u8]) -> String {
    let mut out = [0; LONGEST_LISTING];
    match list(packet, &mut out) {
        Ok(size) => String::from_utf8(out[..size].to_vec()).unwrap(),
        Err(refusal) => {
            let (number, place, tag) = parts(refusal);
            format!("refused\t{number}\t{place}\t{tag}\n")
        }
    }
}

/// How many items a packet has.
fn count(packet: &[u8]) -> Result<usize, Refusal> {
    check(packet, Knowing::ALL).map(|accepted| accepted.count)
}

/// The accepted samples.
fn accepted() -> Vec<Vec<u8>> {
    [
        "smallest",
        "tower",
        "relayed",
        "offsets",
        "tower_extended",
        "island",
        "fleet",
    ]
    .map(sample)
    .into()
}

#[test]
fn stored_packets_are_listed() {
    for (name, least) in [("samples", 20), ("tests/list", 1)] {
        let packets = listed(name);
        assert!(packets.len() >= least, "{name}: packets are missing");
        for (packet, stored) in packets {
            assert_eq!(listing(&packet), stored);
        }
    }
}

#[test]
fn a_packet_gets_one_answer_from_every_reader() {
    for (packet, _) in listed("samples") {
        let accepted = check(&packet, Knowing::ALL);
        let refusal = accepted.err();
        let mut table = [0; TABLE_WORDS];
        let mut out = [0; LONGEST_PACKET];
        let rows = read(&packet, Knowing::ALL, &mut table).map(|rows| Accepted {
            count: rows.len(),
            present: rows.present(),
            withdrawn: rows.withdrawn(),
        });
        assert_eq!(rows, accepted);
        let walked = items(&packet, Knowing::ALL).map(Iterator::count);
        assert_eq!(walked, accepted.map(|accepted| accepted.count));
        assert_eq!(forward(&packet, Knowing::ALL, &mut out).err(), refusal);
        assert_eq!(sensor_height(&packet, Knowing::ALL).err(), refusal);
        assert_eq!(frame_centre_height(&packet, Knowing::ALL).err(), refusal);
        for k in [0, 1, 4, 5, u64::MAX] {
            assert_eq!(corner(&packet, Knowing::ALL, k).err(), refusal);
        }
    }
}

#[test]
fn empty_slices_have_answers() {
    let smallest = sample("smallest");
    assert_eq!(refused(check(&[], Knowing::ALL)), (4, 0, 0));
    assert_eq!(refused(items(&[], Knowing::ALL)), (4, 0, 0));
    assert_eq!(refused(read(&smallest, Knowing::ALL, &mut [])), (2, 0, 0));
    assert_eq!(refused(forward(&[], Knowing::ALL, &mut [])), (4, 0, 0));
    assert_eq!(
        refused(forward(&smallest, Knowing::ALL, &mut [])),
        (18, 0, 0)
    );
    assert_eq!(refused(list(&[], &mut [])), (4, 0, 0));
    assert_eq!(refused(list(&smallest, &mut [])), (18, 0, 0));
    assert_eq!(
        refused(write(&[], 0, &[], Knowing::ALL, &mut [])),
        (9, 0, 0)
    );
    let none = Present::default();
    assert_eq!(
        refused(write_with(&[], 0, &[], Knowing::ALL, none, &mut [])),
        (9, 0, 0)
    );
    assert_eq!(refused(write_rows(&[], Knowing::ALL, &mut [])), (9, 0, 0));
    assert_eq!(refused(take_row(&[], 0, 0, &[], Knowing::ALL)), (17, 0, 0));
}

#[test]
fn a_set_that_is_not_good_is_refused_first() {
    let beside = Knowing::ALL.with(40);
    for bad in [
        Knowing::from_words(0, 0),
        Knowing::LEAST.without(65),
        beside,
    ] {
        let first = (1, 0, 0);
        assert_eq!(refused(check(&[], bad)), first);
        assert_eq!(refused(items(&[], bad)), first);
        assert_eq!(refused(read(&[], bad, &mut [])), first);
        assert_eq!(refused(take_row(&[], 1, 0, &[], bad)), first);
        assert_eq!(refused(write(&[], 1, &[], bad, &mut [])), first);
        let (low, high) = bad.words();
        let words = Present::from_words(low, high);
        assert_eq!(refused(write_with(&[], 1, &[], bad, words, &mut [])), first);
        assert_eq!(refused(write_rows(&[], bad, &mut [])), first);
        assert_eq!(refused(forward(&[], bad, &mut [])), first);
        assert_eq!(refused(sensor_height(&[], bad)), first);
        assert_eq!(refused(frame_centre_height(&[], bad)), first);
        assert_eq!(refused(corner(&[], bad, 1)), first);
    }
}

#[test]
fn a_table_is_filled_or_left_as_it_was() {
    let packet = sample("smallest");
    let mut short = [7; TABLE_WORDS - 1];
    assert_eq!(refused(read(&packet, Knowing::ALL, &mut short)), (2, 0, 0));
    assert_eq!(short, [7; TABLE_WORDS - 1]);

    let mut table = [7; TABLE_WORDS + 1];
    assert_eq!(
        refused(read(&packet[1..], Knowing::ALL, &mut table)),
        (4, 0, 0)
    );
    assert_eq!(table, [7; TABLE_WORDS + 1]);

    let place = |place: u64, length: u64| place * 65_536 + length;
    let words = [
        [2, 1, 1, place(19, 8)],
        [65, 1, 17, place(29, 1)],
        [1, 1, 0x62a6, place(32, 2)],
    ];
    let rows = read(&packet, Knowing::ALL, &mut table).unwrap();
    assert_eq!(rows.words(), words.as_flattened());
    assert_eq!(table[..12], *words.as_flattened());
    assert_eq!(table[12..TABLE_WORDS], [0; TABLE_WORDS - 12]);
    assert_eq!(table[TABLE_WORDS], 7);
}

#[test]
fn rows_are_taken_one_by_one_from_either_end() {
    let packet = sample("tower");
    let mut table = [0; TABLE_WORDS];
    let rows = read(&packet, Knowing::ALL, &mut table).unwrap();
    assert_eq!((rows.len(), rows.is_empty()), (52, false));
    assert_eq!(rows.words().len(), 4 * 52);
    assert_eq!((rows.get(52), rows.get(usize::MAX)), (None, None));

    let singly: Vec<Row> = (0..52).map(|n| rows.get(n).unwrap()).collect();
    assert_eq!(rows.iter().collect::<Vec<_>>(), singly);
    assert_eq!((&rows).into_iter().collect::<Vec<_>>(), singly);
    assert_eq!(rows.into_iter().collect::<Vec<_>>(), singly);
    let mut backwards: Vec<Row> = rows.iter().rev().collect();
    backwards.reverse();
    assert_eq!(backwards, singly);

    let mut left = rows.iter();
    assert_eq!((left.next(), left.next_back()), (rows.get(0), rows.get(51)));
    assert_eq!((left.len(), left.size_hint()), (50, (50, Some(50))));
    assert_eq!(left.by_ref().count(), 50);
    assert_eq!((left.next(), left.next_back(), left.len()), (None, None, 0));
}

/// What the rows of one tag hold.
fn contents<'p>(rows: Rows<'p, '_>, tag: u64) -> Vec<Content<'p>> {
    let found = rows.into_iter().filter(|row| row.tag == tag);
    found.map(|row| row.content).collect()
}

#[test]
fn rows_hold_the_kinds_of_content() {
    use Content::{Carried, Mark, Reading, Text};
    let packet = sample("tower");
    let mut table = [0; TABLE_WORDS];
    let rows = read(&packet, Knowing::ALL, &mut table).unwrap();
    let temperature = Reading {
        code: 0xfc,
        length: 1,
    };
    assert_eq!(contents(rows, 39), [temperature]);
    assert_eq!(contents(rows, 82), [Mark]);
    assert_eq!(contents(rows, 59), [Text(b"OYSTER 1")]);
    let twice = [Carried(b"\x0b\x02EO"), Carried(b"\x0b\x02IR")];
    assert_eq!(contents(rows, 100), twice);

    // A receiver that knows none of them carries them all.
    let rows = read(&packet, Knowing::LEAST, &mut table).unwrap();
    assert_eq!(contents(rows, 39), [Carried(b"\xfc")]);
    assert_eq!(contents(rows, 82), [Carried(b"\x80\0\0\0")]);
    assert_eq!(contents(rows, 59), [Carried(b"OYSTER 1")]);
}

#[test]
fn a_text_is_a_part_of_the_packet_and_outlives_the_table() {
    let (tower, smallest) = (sample("tower"), sample("smallest"));
    let mission = {
        let mut table = [0; TABLE_WORDS];
        let rows = read(&tower, Knowing::ALL, &mut table).unwrap();
        let mission = rows.get(2).unwrap();
        let again = read(&smallest, Knowing::ALL, &mut table).unwrap();
        assert_eq!(again.len(), 3);
        mission
    };
    let Content::Text(text) = mission.content else {
        panic!("item 3 is a text");
    };
    assert_eq!(text, b"TOWER 17 NORTH");
    assert!(tower.as_ptr_range().contains(&text.as_ptr()));
}

#[test]
fn a_row_that_is_not_there_or_bad_is_refused() {
    let of = |words: &[u64], count, n, buffer: &[u8]| {
        refused(take_row(words, count, n, buffer, Knowing::ALL))
    };
    let carried = [40, 4, 0, 2 * 65_536 + 3];
    assert_eq!(of(&[0; 4 * 129], 129, 0, &[]), (16, 0, 0));
    assert_eq!(of(&carried, 2, 0, b"01234"), (16, 0, 0));
    assert_eq!(of(&carried, usize::MAX, 0, b"01234"), (16, 0, 0));
    assert_eq!(of(&carried, 1, 1, b"01234"), (17, 1, 0));
    assert_eq!(of(&carried, 1, usize::MAX, b"01234"), (17, usize::MAX, 0));
    assert_eq!(of(&carried, 1, 0, b"0123"), (17, 0, 40));
    assert_eq!(of(&[40, 4, 0, u64::MAX], 1, 0, b"01234"), (17, 0, 40));
    assert_eq!(of(&[2_097_152, 4, 0, 0], 1, 0, &[]), (17, 0, 0));

    let empty = take_row(&[40, 4, 0, 0], 1, 0, &[], Knowing::ALL).unwrap();
    assert_eq!(empty.content, Content::Carried(&[]));
}

#[test]
fn rows_are_written_as_the_packet_is_sent_on() {
    for packet in accepted() {
        let mut table = [0; TABLE_WORDS];
        let rows = read(&packet, Knowing::ALL, &mut table).unwrap();
        let mut written = [0xee; LONGEST_PACKET];
        let size = write(
            rows.words(),
            rows.len(),
            &packet,
            Knowing::ALL,
            &mut written,
        )
        .unwrap();
        assert!(written[size..].iter().all(|byte| *byte == 0xee));
        for knowing in [Knowing::ALL, Knowing::LEAST] {
            let mut sent = [0xee; LONGEST_PACKET];
            assert_eq!(forward(&packet, knowing, &mut sent), Ok(size));
            assert_eq!(sent, written);
        }
    }
}

#[test]
fn an_output_has_exactly_room_or_is_left_as_it_was() {
    let (tower, relayed) = (sample("tower"), sample("relayed"));
    let mut exact = vec![0; tower.len()];
    assert_eq!(forward(&relayed, Knowing::ALL, &mut exact), Ok(tower.len()));
    assert_eq!(exact, tower);

    let mut short = vec![7; tower.len() - 1];
    assert_eq!(
        refused(forward(&relayed, Knowing::ALL, &mut short)),
        (18, 0, 0)
    );
    assert!(short.iter().all(|byte| *byte == 7));

    let size = listing(&tower).len();
    let mut short = vec![7; size - 1];
    assert_eq!(refused(list(&tower, &mut short)), (18, 0, 0));
    assert!(short.iter().all(|byte| *byte == 7));
    assert_eq!(list(&tower, &mut vec![7; size]), Ok(size));
}

#[test]
fn worked_values_are_turned_both_ways() {
    let worked = [
        (18, 4, 0x724a_0a20, 1_607_192_114),
        (19, 4, 0x87f8_4b86, -1_687_923_248),
        (21, 4, 0x0383_0926, 68_590_983),
        (64, 2, 0xddc5, 3_118_681_621),
        (26, 2, 0x8001, -750_000),
        (26, 2, 0x7fff, 750_000),
        (26, 2, 1, 23),
        (39, 1, 0x80, -128_000),
        (15, 2, 0, -900_000),
        (15, 2, 0xffff, 19_000_000),
        (67, 4, 0x85a1_5a39, -860_412_073),
    ];
    for (tag, length, code, value) in worked {
        assert_eq!(to_house(tag, length, code), Ok(value));
    }
    assert_eq!(to_code(36, 1, 10_000), Ok(26));
    assert_eq!(to_code(36, 1, 9_999), Ok(25));
    assert_eq!(to_code(26, 2, -375_000), Ok(0xc000));
    assert_eq!(refused(to_house(26, 2, 0x8000)), (20, 0, 26));
    assert_eq!(refused(to_house(26, 2, u64::MAX)), (20, 0, 26));
    assert_eq!(refused(to_code(26, 2, i64::MIN)), (21, 0, 26));
    assert_eq!(refused(to_house(2, 8, 0)), (19, 0, 2));
    assert_eq!(refused(to_code(u64::MAX, 8, 0)), (19, 0, u64::MAX));
}

#[test]
fn heights_keep_their_kind() {
    let tower = sample("tower");
    let old = Knowing::ALL.without(75).without(78);
    let ellipsoid = |mm| Ok(Height::OverEllipsoid(EllipsoidHeight(mm)));
    let sea_level = |mm| Ok(Height::OverSeaLevel(SeaLevelHeight(mm)));
    assert_eq!(sensor_height(&tower, Knowing::ALL), ellipsoid(689_935));
    assert_eq!(sensor_height(&tower, old), sea_level(641_958));
    assert_eq!(
        frame_centre_height(&tower, Knowing::ALL),
        ellipsoid(649_549)
    );
    assert_eq!(frame_centre_height(&tower, old), sea_level(601_572));
    assert_eq!(sensor_height(&tower, old.without(15)), Ok(Height::Missing));
    // Of the newer drone's packet: by 104, then by 75, then by 15.
    let newer = sample("tower_extended");
    assert_eq!(sensor_height(&newer, Knowing::ALL), ellipsoid(690_063));
    let older = Knowing::ALL.without(104);
    assert_eq!(sensor_height(&newer, older), ellipsoid(689_935));
    assert_eq!(sensor_height(&newer, older.without(75)), sea_level(641_958));
    assert_eq!(sensor_height(&newer, old), ellipsoid(690_063));
    assert_eq!(
        frame_centre_height(&tower, old.without(25)),
        Ok(Height::Missing)
    );
}

#[test]
fn corners_are_points_off_the_earth_or_missing() {
    let at = |latitude, longitude| {
        Corner::At(Point {
            latitude,
            longitude,
        })
    };
    let corners = |name: &str, knowing| -> Vec<Corner> {
        let packet = sample(name);
        (0..=5)
            .map(|k| corner(&packet, knowing, k).unwrap())
            .collect()
    };
    use Corner::{Missing, OffTheEarth};
    let tower = [
        Missing,
        OffTheEarth,
        OffTheEarth,
        at(469_001_577, 83_008_305),
        at(469_005_859, 82_999_207),
        Missing,
    ];
    assert_eq!(corners("tower", Knowing::ALL), tower);
    assert_eq!(corners("relayed", Knowing::ALL), tower);
    let offsets = [
        Missing,
        at(-105_287_285, 291_615_500),
        at(-105_460_485, 291_715_502),
        at(-105_534_508, 291_527_309),
        at(-105_413_266, 291_457_292),
        Missing,
    ];
    assert_eq!(corners("offsets", Knowing::ALL), offsets);
    assert_eq!(corners("offsets", Knowing::LEAST), [Missing; 6]);

    // Across the 180th meridian: corner 2 by its offsets, corner 3 by its full items at exactly 180 degrees.
    let island = [
        Missing,
        at(-167_920_002, 1_799_624_995),
        at(-167_950_009, -1_799_699_989),
        at(-168_220_000, -1_800_000_000),
        at(-168_200_002, 1_799_784_989),
        Missing,
    ];
    assert_eq!(corners("island", Knowing::ALL), island);

    // A receiver without the full items takes the offsets, also where the full corner is a mark.
    let old = (82..=89).fold(Knowing::ALL, Knowing::without);
    assert_eq!(corners("tower", old)[1], at(469_766_368, 83_416_463));
    assert_eq!(corners("tower", old)[2], OffTheEarth);
}

#[test]
fn knowing_sets_are_two_words() {
    assert_eq!(Knowing::default(), Knowing::ALL);
    assert_eq!(Knowing::LEAST.words(), (0b110, 0b10));
    let (low, high) = Knowing::ALL.words();
    assert_eq!(Knowing::from_words(low, high), Knowing::ALL);
    let known = (0..200).filter(|tag| Knowing::ALL.knows(*tag));
    assert_eq!(known.count(), 67);
    for tag in 0..128 {
        let only = Knowing::from_words(0, 0).with(tag);
        assert_eq!(
            (0..200).filter(|t| only.knows(*t)).collect::<Vec<_>>(),
            [tag]
        );
        assert_eq!(only.without(tag), Knowing::from_words(0, 0));
    }
    for tag in [128, 130, 193, u64::MAX] {
        assert_eq!(Knowing::LEAST.with(tag), Knowing::LEAST);
        assert_eq!(Knowing::LEAST.without(tag), Knowing::LEAST);
    }
}

#[test]
fn a_refusal_is_an_error_in_plain_words() {
    let refusal = check(&sample("refused_11_checksum"), Knowing::ALL).unwrap_err();
    assert_eq!(refusal.reason, Reason::ChecksumDiffers);
    let error: Box<dyn std::error::Error> = refusal.into();
    assert_eq!(
        error.to_string(),
        "refused by 11, place 32, tag 1: checksum differs"
    );
}
