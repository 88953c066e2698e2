//! What holds of the table after any list of calls from fresh records and a fresh table: a cable
//! joins bound ports of two domains, and no end is in two cables.

use crate::model::cables::{End, Table};

/// An error text where it does not hold; `bound` says whether an end is a bound port.
pub fn check(table: &Table, bound: impl Fn(End) -> bool) -> Result<(), String> {
    let cables = table.slots().iter().filter_map(|slot| slot.cable());
    let mut ends = Vec::new();
    for cable in cables {
        if cable[0].domain() == cable[1].domain() {
            return Err(format!("both ends in one domain: {cable:?}"));
        }
        ends.extend(cable);
    }
    if let Some(end) = ends.iter().find(|end| !bound(**end)) {
        return Err(format!("a cable at a port that is not bound: {end:?}"));
    }
    ends.sort_unstable();
    match ends.windows(2).find(|two| two[0] == two[1]) {
        Some(two) => Err(format!("an end in two cables: {:?}", two[0])),
        None => Ok(()),
    }
}
