//! Every deliberate fault of the oracle must be found.

use oracle::faults::{switch, Fault};

use crate::tally::Tally;
use crate::{run as compare, show, shrink, Extent};

/// The lines about a fault: what it is, and how it was found. None if it wasn't.
fn find(extent: Extent, fault: Fault) -> Option<[String; 2]> {
    switch(Some(fault));
    let mut tally = Tally::new();
    let found = compare(extent, &mut tally).err().map(|found| {
        let (case, trouble) = shrink::shrink(&found.failure);
        let lines = [
            format!("{}: {}", fault.name(), fault.text()),
            format!(
                "  found by {} in {} after {} calls and {} images; smallest: {}",
                trouble.at,
                found.kind,
                tally.calls,
                tally.damaged_images,
                show::size(&case)
            ),
        ];
        println!("{}\n{}", lines[0], lines[1]);
        println!("{}  {}", show::case(&case), trouble.text);
        lines
    });
    switch(None);
    found
}

/// All faults, or the one named. Gives the lines about them if all were found.
pub fn run(extent: Extent, name: Option<&str>) -> Option<Vec<String>> {
    let named = |fault: &&Fault| name.is_none_or(|name| name == fault.name());
    let (mut lines, mut made, mut unseen) = (Vec::new(), 0, 0);
    for fault in Fault::ALL.iter().filter(named) {
        made += 1;
        match find(extent, *fault) {
            Some(found) => lines.extend(found),
            None => {
                println!("{}: NOT FOUND ({})", fault.name(), fault.text());
                unseen += 1;
            }
        }
    }
    println!("{made} faults, {unseen} not found");
    (made > 0 && unseen == 0).then_some(lines)
}
