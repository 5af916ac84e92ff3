//! The damaged books, as far as they can be had without the archive: that they reach all that is tallied, and that what is
//! never refused isn't.

use oracle::damage::{records, Record, Tally, MEMORY_BYTES};

#[test]
fn the_cases_reach_everything_and_damage_that_is_not_looked_at_is_not_refused() {
    let mut tally = Tally::default();
    let mut memory = Box::new([0; MEMORY_BYTES]);
    let mut never_refused = 0;
    records(20_260_201, 30_000, |record| {
        match record {
            Record::Memory(next) => memory.copy_from_slice(next),
            Record::Case(case) => {
                let told = case.told(&memory);
                if case.harm.is_never_refused() {
                    never_refused += 1;
                    assert_ne!(told.said, 7, "{}", case.harm.name());
                }
                tally.case(case, &told);
            }
        }
        Ok(())
    })
    .unwrap();
    assert_eq!(tally.missing(), Vec::<String>::new());
    assert!(never_refused > 4_000, "{never_refused}");
}
