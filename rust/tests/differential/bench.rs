//! Runs the cases of a law and counts what came.

use crate::compare::{holds, Comparer, Tally, Verdict, LAST_REFUSAL};
use crate::lists::List;
use crate::make::Maker;
use crate::random::{setting, Random};
use crate::tables::Table;
use crate::twin::Twin;

/// A law: what a case compares, its share of the comparisons, and the refusals that must come.
pub struct Law {
    pub number: u64,
    pub name: &'static str,
    pub share: u64,
    pub refusals: &'static [usize],
    pub case: fn(&mut Bench) -> Verdict,
}

pub struct Bench {
    pub maker: Maker,
    pub comparer: Comparer,
    pub packet: Vec<u8>,
    pub table: Table,
    pub list: List,
    seed: u64,
    packet_as_made: Vec<u8>,
    table_as_made: Table,
    list_as_made: List,
}

impl Bench {
    pub fn new(twin: Twin) -> Bench {
        Bench {
            maker: Maker::new(),
            comparer: Comparer::new(twin),
            packet: Vec::new(),
            table: Table::default(),
            list: List::default(),
            seed: seed(),
            packet_as_made: Vec::new(),
            table_as_made: Table::default(),
            list_as_made: List::default(),
        }
    }

    pub fn make_packet(&mut self) {
        self.maker.packet(&mut self.packet);
        self.packet_as_made.clone_from(&self.packet);
    }

    pub fn make_table(&mut self) {
        self.maker.table(&mut self.table);
        self.table_as_made.clone_from(&self.table);
    }

    pub fn make_list(&mut self) {
        self.maker.list(&mut self.list);
        self.list_as_made.clone_from(&self.list);
    }

    /// What is lent to be read alone stays as it was.
    fn inputs_stay(&self) -> Verdict {
        let stay = self.packet == self.packet_as_made
            && self.table == self.table_as_made
            && self.list == self.list_as_made;
        holds(stay, || String::from("an input has changed"))
    }

    /// One case; a difference is told with all that is needed to see it again.
    pub fn try_case(&mut self, law: &Law, case: u64) -> Verdict {
        let seed = self.seed;
        self.maker.random = Random::of_case(seed, law.number, case);
        let verdict = (law.case)(self).and_then(|()| self.inputs_stay());
        verdict.map_err(|difference| {
            format!(
                "{} differs in case {case} of seed {seed}: {difference}",
                law.name
            )
        })
    }
}

pub fn seed() -> u64 {
    setting("OYSTERKNOLL_SEED").unwrap_or(20_601)
}

/// The number of cases of a share, with the gate's total or the one from the environment.
pub fn cases_of(share: u64) -> u64 {
    match setting("OYSTERKNOLL_CASES") {
        Some(total) => (u128::from(share) * u128::from(total) / u128::from(crate::TOTAL)) as u64,
        None => share,
    }
}

pub fn run(law: &Law) {
    let wanted = cases_of(law.share);
    let mut bench = Bench::new(Twin::TRUE);
    let mut case = 0;
    while bench.comparer.tally.cases < wanted {
        must_hold(bench.try_case(law, case));
        case += 1;
    }
    report(law.name, &bench.comparer.tally);
    if wanted >= law.share {
        all_came(law, &bench.comparer.tally);
    }
}

pub fn must_hold(verdict: Verdict) {
    if let Err(difference) = verdict {
        panic!("{difference}");
    }
}

pub fn report(name: &str, tally: &Tally) {
    let came = (1..=LAST_REFUSAL).filter(|&number| tally.refusals[number] > 0);
    let refusals: String = came
        .map(|number| format!("; {number}: {}", tally.refusals[number]))
        .collect();
    println!(
        "{name}: {} cases of seed {}; accepted: {}{refusals}",
        tally.cases,
        seed(),
        tally.accepted
    );
}

/// Every refusal that the law names came, and a fair part was accepted.
fn all_came(law: &Law, tally: &Tally) {
    assert!(
        20 * tally.accepted >= tally.cases,
        "{}: hardly anything was accepted",
        law.name
    );
    for &number in law.refusals {
        assert!(
            tally.refusals[number] > 0,
            "{}: refusal {number} never came",
            law.name
        );
    }
}
