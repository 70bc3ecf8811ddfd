//! The product against a twin written from documents 01 and 02 alone, over seeded cases.
//!
//! `OYSTERKNOLL_SEED` sets the seed, `OYSTERKNOLL_CASES` the number of comparisons in all.

#[path = "differential/bench.rs"]
mod bench;
#[path = "differential/catalogue.rs"]
mod catalogue;
#[path = "differential/compare.rs"]
mod compare;
#[path = "differential/conversions.rs"]
mod conversions;
#[path = "differential/damage.rs"]
mod damage;
#[path = "differential/demands.rs"]
mod demands;
#[path = "differential/earth.rs"]
mod earth;
#[path = "differential/extended.rs"]
mod extended;
#[path = "differential/laws.rs"]
mod laws;
#[path = "differential/lent.rs"]
mod lent;
#[path = "differential/lists.rs"]
mod lists;
#[path = "differential/make.rs"]
mod make;
#[path = "differential/present.rs"]
mod present;
#[path = "differential/random.rs"]
mod random;
#[path = "differential/same.rs"]
mod same;
#[path = "differential/tables.rs"]
mod tables;
#[path = "differential/twin.rs"]
mod twin;
#[path = "differential/twin_answers.rs"]
mod twin_answers;
#[path = "differential/twin_present.rs"]
mod twin_present;
#[path = "differential/twin_records.rs"]
mod twin_records;
#[path = "differential/twin_withdrawn.rs"]
mod twin_withdrawn;
#[path = "differential/twin_write.rs"]
mod twin_write;
#[path = "differential/wire.rs"]
mod wire;
#[path = "differential/withdrawn.rs"]
mod withdrawn;
#[path = "differential/withdrawn_ground.rs"]
mod withdrawn_ground;
#[path = "differential/worked.rs"]
mod worked;

use bench::{must_hold, report, run, Bench, Law};
use catalogue::{corner_form, form, tags_of, unit, Unit, ALL};
use compare::{Comparer, LAST_REFUSAL};
use conversions::{code_agrees, edge_codes, edge_values, scaled, ties, value_agrees};
use twin::{Twin, ALTERATIONS};
use twin_answers::Scale;

/// The laws on packets, tables, listings and records, then the one on conversions.
const LAWS: [Law; 11] = [
    Law {
        number: 1,
        name: "reader",
        share: 260_000,
        refusals: &[1, 2, 3, 4, 5, 6, 7, 8, 9, 10, 11, 12, 13, 14, 15],
        case: laws::reader,
    },
    Law {
        number: 2,
        name: "forwarder",
        share: 100_000,
        refusals: &[1, 3, 4, 5, 6, 7, 8, 9, 10, 11, 12, 13, 14, 15, 18],
        case: laws::forwarder,
    },
    Law {
        number: 3,
        name: "rows taken out",
        share: 300_000,
        refusals: &[1, 16, 17],
        case: laws::rows_taken_out,
    },
    Law {
        number: 4,
        name: "writer",
        share: 180_000,
        refusals: &[1, 3, 9, 10, 12, 13, 14, 15, 16, 17, 18],
        case: laws::writer,
    },
    Law {
        number: 5,
        name: "heights and corners",
        share: 150_000,
        refusals: &[1, 3, 4, 5, 6, 7, 8, 9, 10, 11, 12, 13, 14, 15],
        case: laws::heights_and_corners,
    },
    Law {
        number: 6,
        name: "listing",
        share: 30_000,
        refusals: &[3, 4, 5, 6, 7, 8, 9, 10, 11, 12, 13, 14, 15, 18],
        case: laws::listing,
    },
    Law {
        number: 10,
        name: "walker",
        share: 100_000,
        refusals: &[1, 3, 4, 5, 6, 7, 8, 9, 10, 11, 12, 13, 14, 15],
        case: laws::walker,
    },
    Law {
        number: 11,
        name: "writer of records",
        share: 100_000,
        refusals: &[1, 3, 9, 10, 12, 13, 14, 15, 16, 17, 18],
        case: laws::writer_of_records,
    },
    Law {
        number: 13,
        name: "asked of the words",
        share: 100_000,
        refusals: &[1, 3, 4, 5, 6, 7, 8, 9, 10, 11, 12, 13, 14, 15],
        case: laws::asked,
    },
    Law {
        number: 14,
        name: "writer handed words",
        share: 200_000,
        refusals: &[1, 3, 9, 10, 12, 13, 14, 15, 16, 17, 18, 22],
        case: laws::writer_with_words,
    },
    Law {
        number: 7,
        name: "conversions",
        share: 280_000,
        refusals: &[19, 20, 21],
        case: conversions::conversions,
    },
];

/// Laws on the product's own answers; their cases are beside the total.
const WRITTEN_READS_BACK: Law = Law {
    number: 8,
    name: "written reads back",
    share: 40_000,
    refusals: &[],
    case: demands::written_reads_back,
};
const FULLER_AND_POORER: Law = Law {
    number: 9,
    name: "fuller and poorer",
    share: 40_000,
    // Those that only the fuller receiver gives.
    refusals: &[12, 13, 14],
    case: demands::fuller_and_poorer,
};
const WALKED_AND_WRITTEN: Law = Law {
    number: 12,
    name: "walked and written",
    share: 20_000,
    refusals: &[1, 3, 4, 5, 6, 7, 8, 9, 10, 11, 12, 13, 14, 15],
    case: demands::walked_and_written,
};

const WORDS_OF_TWO_RECEIVERS: Law = Law {
    number: 15,
    name: "words of two receivers",
    share: 20_000,
    refusals: &[3, 4, 5, 6, 7, 8, 9, 10, 11, 12, 13, 14, 15],
    case: present::words_of_two_receivers,
};
const WORDS_OF_WHAT_IS_SENT_ON: Law = Law {
    number: 16,
    name: "words of what is sent on",
    share: 20_000,
    refusals: &[3, 4, 5, 6, 7, 8, 9, 10, 11, 12, 13, 14, 15],
    case: present::words_of_what_is_sent_on,
};
const WORDS_OF_WHAT_IS_WRITTEN: Law = Law {
    number: 17,
    name: "words of what is written",
    share: 20_000,
    refusals: &[1, 3, 9, 10, 12, 13, 14, 15, 16, 17],
    case: present::words_of_what_is_written,
};

const WITHDRAWN_AS_ABSENT: Law = Law {
    number: 18,
    name: "withdrawn as absent",
    share: 20_000,
    refusals: &[1, 3, 4, 5, 6, 7, 8, 9, 10, 11, 12, 13, 14, 15],
    case: withdrawn_ground::as_absent,
};

/// The comparisons of product and twin in the gate.
pub const TOTAL: u64 = total();

const fn total() -> u64 {
    let mut sum = 0;
    let mut refusals: u32 = 0;
    let mut n = 0;
    while n < LAWS.len() {
        sum += LAWS[n].share;
        let mut one = 0;
        while one < LAWS[n].refusals.len() {
            refusals |= 1 << LAWS[n].refusals[one];
            one += 1;
        }
        n += 1;
    }
    // Every refusal from 1 on, each named by a law that fails if it never comes.
    assert!(refusals == (2 << LAST_REFUSAL) - 2);
    sum
}

const _: () = assert!(TOTAL >= 1_000_000);
// Packets, tables, listings and records: all but the conversions.
const _: () = assert!(TOTAL - LAWS[10].share >= 1_000_000);

#[test]
fn reader() {
    run(&LAWS[0]);
}

#[test]
fn forwarder() {
    run(&LAWS[1]);
}

#[test]
fn rows_taken_out() {
    run(&LAWS[2]);
}

#[test]
fn writer() {
    run(&LAWS[3]);
}

#[test]
fn heights_and_corners() {
    run(&LAWS[4]);
}

#[test]
fn listing() {
    run(&LAWS[5]);
}

#[test]
fn walker() {
    run(&LAWS[6]);
}

#[test]
fn writer_of_records() {
    run(&LAWS[7]);
}

#[test]
fn asked_of_the_words() {
    run(&LAWS[8]);
}

#[test]
fn writer_handed_words() {
    run(&LAWS[9]);
}

#[test]
fn conversions_of_edges_and_samples() {
    run(&LAWS[10]);
}

#[test]
fn what_is_written_reads_back_as_it_was() {
    run(&WRITTEN_READS_BACK);
}

#[test]
fn a_poorer_receiver_agrees_with_a_fuller_one() {
    run(&FULLER_AND_POORER);
}

#[test]
fn what_is_walked_is_read_and_its_records_are_sent_on() {
    run(&WALKED_AND_WRITTEN);
}

#[test]
fn a_poorer_receivers_words_are_the_fullers_within_its_set() {
    run(&WORDS_OF_TWO_RECEIVERS);
}

#[test]
fn what_is_sent_on_has_the_original_words() {
    run(&WORDS_OF_WHAT_IS_SENT_ON);
}

#[test]
fn what_is_written_with_its_words_reads_back_with_them() {
    run(&WORDS_OF_WHAT_IS_WRITTEN);
}

#[test]
fn what_is_withdrawn_is_as_absent() {
    run(&WITHDRAWN_AS_ABSENT);
}

/// Every tag up to 300, then those that a shift or a cut takes for one of the catalogue's.
fn many_tags() -> impl Iterator<Item = u64> {
    let far = (8..64).flat_map(|bit| (0..128).map(move |tag| 1 << bit | tag));
    let last = u64::MAX - 300..=u64::MAX;
    (0..=300).chain(far).chain(last)
}

/// Words with one bit, and words with all but one.
#[test]
fn every_bit_asked_for_many_tags() {
    let mut comparer = Comparer::new(Twin::TRUE);
    for bit in 0..128 {
        for tag in many_tags() {
            must_hold(comparer.has(1 << bit, tag));
            must_hold(comparer.has(!(1 << bit), tag));
        }
    }
    report("every bit asked for many tags", &comparer.tally);
}

#[test]
fn every_tag_of_the_catalogue() {
    let mut comparer = Comparer::new(Twin::TRUE);
    for tag in many_tags() {
        must_hold(comparer.item(tag));
    }
    report("every tag of the catalogue", &comparer.tally);
    let all = oysterknoll::catalogue::all().map(Some);
    assert!(all.eq(tags_of(ALL).map(oysterknoll::catalogue::item)));
}

/// Those that document 01 names for corners 1 to 4, and no others, are in the catalogue what the pattern says (W-205).
#[test]
fn every_corner_tag_by_its_pattern() {
    let mut comparer = Comparer::new(Twin::TRUE);
    let of_corner = |k: u64| [80 + 2 * k, 81 + 2 * k, 24 + 2 * k, 25 + 2 * k];
    let corners: Vec<u64> = (1..=4).flat_map(of_corner).collect();
    for tag in many_tags() {
        let pattern = corner_form(tag);
        assert_eq!(pattern.is_some(), corners.contains(&tag), "{tag}");
        if pattern.is_some() {
            let of_table = (form(tag), unit(tag));
            assert_eq!(of_table, (pattern, Some(Unit::Degree)), "{tag}");
            must_hold(comparer.item(tag));
        }
    }
    report("every corner tag by its pattern", &comparer.tally);
    assert_eq!(comparer.tally.cases, 16);
}

#[test]
fn every_code_of_one_and_two_bytes() {
    let mut comparer = Comparer::new(Twin::TRUE);
    for told in scaled(16) {
        for code in 0..1 << told.scale.bits {
            must_hold(code_agrees(&mut comparer, told, code));
        }
    }
    report("every code of one and two bytes", &comparer.tally);
    // Three of them are the extended heights of two bytes.
    assert_eq!(comparer.tally.cases, 28 * 65_536 + 6 * 256);
}

#[test]
fn every_value_of_one_byte() {
    let mut comparer = Comparer::new(Twin::TRUE);
    for told in scaled(8) {
        for value in told.scale.low - 2..=told.scale.high + 2 {
            must_hold(value_agrees(&mut comparer, told, value));
        }
    }
    report("every value of one byte", &comparer.tally);
}

#[test]
fn every_edge() {
    let mut comparer = Comparer::new(Twin::TRUE);
    for told in scaled(32) {
        for code in edge_codes(told.scale) {
            must_hold(code_agrees(&mut comparer, told, code));
        }
        for value in edge_values(told.scale) {
            must_hold(value_agrees(&mut comparer, told, value));
        }
    }
    report("every edge", &comparer.tally);
}

#[test]
fn every_tag_without_scale() {
    let mut comparer = Comparer::new(Twin::TRUE);
    let small = (0..20_000).chain(2_097_000..2_097_200);
    for tag in small.filter(|&tag| Scale::of(tag, 2).is_none()) {
        must_hold(comparer.house_of(tag, 2, 1));
        must_hold(comparer.code_of(tag, 2, 1));
    }
    report("every tag without scale", &comparer.tally);
    assert_eq!(comparer.tally.accepted, 0);
}

/// An extended height is sent as the code at or below, so that half way between two codes is no tie; `extended` has its ties.
#[test]
fn every_tie() {
    let mut comparer = Comparer::new(Twin::TRUE);
    for told in scaled(32).filter(|told| !told.scale.extended) {
        for tie in ties(told.scale) {
            for value in tie - 1..=tie + 1 {
                must_hold(value_agrees(&mut comparer, told, value));
            }
        }
    }
    report("every tie", &comparer.tally);
}

/// A twin with one rule told wrongly differs from the product within few cases; round n asks for item n too.
#[test]
fn every_alteration_is_noticed() {
    for &alteration in ALTERATIONS {
        let mut bench = Bench::new(Twin::altered(alteration));
        let noticed = (0..20_000).find(|&case| {
            LAWS.iter().any(|law| bench.try_case(law, case).is_err())
                || bench.comparer.item(case).is_err()
        });
        println!("{alteration:?}: noticed in round {noticed:?}");
        assert!(noticed.is_some(), "{alteration:?} is not noticed");
    }
}
