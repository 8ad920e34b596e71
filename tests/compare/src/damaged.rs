//! Requests with several faults at once, so that the order of the tests shows.

use crate::lent::Lent;
use crate::operation::{compare, with_room, Operation};
use crate::random::Random;
use crate::report::Row;
use crate::Options;

/// Any request of the operation, damaged once to three times more.
pub fn row(operation: &Operation, options: &Options, work: &mut Lent<u64>) -> Row {
    let mut row = Row::new(operation.name);
    let ours = operation.asked(options);
    for number in options.range() {
        let mut random = Random::new(options.seed, "damaged", 8 * number + operation.number);
        let mut request = (operation.generate)(&mut random, number);
        for _ in 0..1 + random.below(3) {
            (operation.damage)(&mut random, &mut request);
        }
        let request = with_room(operation, &mut random, request, work);
        compare(&mut row, &request, work, (operation, ours), || {
            format!(
                "compare --damaged --only {} --seed {} --first {number} --requests 1",
                operation.name, options.seed
            )
        });
    }
    row
}
