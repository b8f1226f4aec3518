// Bags of pieces, filled to their capacity.

use crate::marks::say;
use crate::tally::Tally;
use bm_base::Refusal;
use bm_crew::{Bag, BagPass};
use std::alloc::Global;
use std::sync::Wait;

pub fn watch<R: Eprint + Wait>(
    rt: &R,
    alloc: Global,
    size: u32,
    tally: &mut Tally,
) -> Result<(), Refusal> {
    let (bag, mut passes) = Bag::<u64>::open(alloc, size as usize, 2)?;
    let mut mine = passes.remove(0);
    let mut other = passes.remove(0);
    say(rt, "begun", "bag");
    put_all(rt, &bag, &mut mine, size as usize);
    take_all(rt, &bag, &mut other, 0, size / 2, tally);
    bag.join(rt, &mut mine, other);
    take_all(rt, &bag, &mut mine, size / 2, size, tally);
    tally.note(bag.take(rt, &mut mine).is_none());
    say(rt, "ended", "bag");
    drop(mine);
    drop(passes);
    drop(bag);
    say(rt, "begun", "control");
    tally.refuse_if(is_refused(alloc, size as usize));
    say(rt, "ended", "control");
    Ok(())
}

/// Whether there is no memory for a bag.
fn is_refused(alloc: Global, size: usize) -> bool {
    match Bag::<u64>::open(alloc, size, 1) {
        Ok((bag, passes)) => {
            drop(passes);
            drop(bag);
            false
        }
        Err(_) => true,
    }
}

/// The piece at an index, which is twice the index.
fn piece(place: u32) -> Option<(usize, u64)> {
    Some((place as usize, 2 * u64::from(place)))
}

fn put_all<R: Wait>(rt: &R, bag: &Bag<u64>, pass: &mut BagPass<u64>, count: usize) {
    for place in 0..count {
        bag.put(rt, pass, place, (place as u64).wrapping_mul(2));
    }
}

/// Takes the pieces of the indices from `from` to before `until`.
fn take_all<R: Wait>(
    rt: &R,
    bag: &Bag<u64>,
    pass: &mut BagPass<u64>,
    from: u32,
    until: u32,
    tally: &mut Tally,
) {
    for place in from..until {
        tally.note(bag.take(rt, pass) == piece(place));
    }
}
