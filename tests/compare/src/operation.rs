//! How an operation is compared: its generator, its oracle, our function.

use crate::ceilings;
use crate::chosen::{self, Chosen, Room};
use crate::early;
use crate::lent::{Cell, Lent};
use crate::random::Random;
use crate::report::Row;
use crate::request::Request;
use crate::Options;
use oracle::Reply;

/// One of clip, clean, candidates, caps, boundary_components. Each has a file that makes this record.
pub struct Operation {
    pub name: &'static str,
    /// Its number in a file of stored answers.
    pub number: u64,
    /// Makes request number `n`; ceiling, work room and outputs are chosen afterwards.
    pub generate: fn(&mut Random, u64) -> Request,
    /// Breaks one thing of a request.
    pub damage: fn(&mut Random, &mut Request),
    /// How many small requests there are, and the one of a number: all of a kind, in turn.
    pub small: (u64, fn(&mut Random, u64) -> Request),
    /// What a small request is lent; chosen at random, with its ceiling, where this is nothing.
    pub small_room: Option<Room>,
    /// Requests that a file of stored answers has in any case.
    pub chosen: fn() -> Vec<Chosen>,
    /// Words of work room that test 7 asks for.
    pub need: fn(&Request) -> u64,
    /// Lengths of the result, for a request that fails at most by test 12.
    pub lengths: fn(&Request) -> [usize; 4],
    pub oracle: Ask,
    /// Our function.
    pub ours: Ask,
}

pub type Ask = fn(&Request, &mut Lent<u64>) -> Answer;

impl Operation {
    /// Our function, or the oracle in a self check.
    pub fn asked(&self, options: &Options) -> Ask {
        if options.self_check {
            self.oracle
        } else {
            self.ours
        }
    }
}

/// A reply of our library in the oracle's form.
pub fn library(reply: yongpham_library::Reply) -> Reply {
    Reply {
        number: reply.number,
        values: reply.values,
    }
}

/// What a call left behind.
#[derive(PartialEq)]
pub struct Answer {
    pub reply: Reply,
    /// The outputs whole, as bits.
    pub outputs: Vec<Vec<u64>>,
    /// A guard overwritten or work room not cleared.
    pub fault: Option<&'static str>,
}

/// Looks at the work room and the outputs after a call.
fn answer(reply: Reply, work: &Lent<u64>, guards: bool, outputs: Vec<Vec<u64>>) -> Answer {
    let fault = if !guards {
        Some("wrote beside an output")
    } else if !work.guards_stand() {
        Some("wrote beside the work room")
    } else if !work.is_zero() {
        Some("work room is not zero")
    } else {
        None
    };
    Answer {
        reply,
        outputs,
        fault,
    }
}

/// Calls an operation that writes a mesh.
pub fn mesh_answer(
    request: &Request,
    work: &mut Lent<u64>,
    call: impl FnOnce(&mut [u64], &mut [f64], &mut [u32]) -> Reply,
) -> Answer {
    let mut vertices = Lent::new(request.outputs[0], work.old());
    let mut facets = Lent::new(request.outputs[1], work.old());
    let reply = call(work.lend(request.work), vertices.slice(), facets.slice());
    let guards = vertices.guards_stand() && facets.guards_stand();
    answer(
        reply,
        work,
        guards,
        vec![vertices.contents(), facets.contents()],
    )
}

/// Calls an operation that writes lists of words.
pub fn lists_answer<const N: usize>(
    request: &Request,
    work: &mut Lent<u64>,
    call: impl FnOnce(&mut [u64], [&mut [u64]; N]) -> Reply,
) -> Answer {
    let mut lists: [Lent<u64>; N] =
        std::array::from_fn(|place| Lent::new(request.outputs[place], work.old()));
    let reply = call(work.lend(request.work), lists.each_mut().map(Lent::slice));
    let guards = lists.iter().all(Lent::guards_stand);
    answer(
        reply,
        work,
        guards,
        lists.iter().map(Lent::contents).collect(),
    )
}

/// Request number `n` with ceiling, work room and outputs.
pub fn request(operation: &Operation, seed: u64, number: u64, work: &mut Lent<u64>) -> Request {
    let mut random = Random::new(seed, operation.name, number);
    let request = (operation.generate)(&mut random, number);
    with_room(operation, &mut random, request, work)
}

/// Chooses ceiling, work room and outputs.
pub fn with_room(
    operation: &Operation,
    random: &mut Random,
    mut request: Request,
    work: &mut Lent<u64>,
) -> Request {
    ceilings::choose(random, &mut request);
    let need = (operation.need)(&request);
    request.choose_work(random, need);
    let lengths = lengths(operation, &request, work);
    request.choose_outputs(random, lengths);
    request
}

/// Lengthens the outputs until the result fits, and answers the last reply with the outputs.
pub fn fitted(ask: Ask, request: &mut Request, work: &mut Lent<u64>) -> Answer {
    request.outputs = [0; 4];
    let mut short = 0;
    loop {
        let answer = ask(request, work);
        if answer.reply.number != 12 {
            return answer;
        }
        // The first short output: those before it have their length.
        let need = answer.reply.values[0] as usize;
        while short < 3 && request.outputs[short] >= need {
            short += 1;
        }
        if request.outputs[short] >= need {
            return answer;
        }
        request.outputs[short] = need;
    }
}

/// Lengths of the result of a request that has no outputs yet; 3 each where it is refused.
pub fn lengths(operation: &Operation, request: &Request, work: &mut Lent<u64>) -> [usize; 4] {
    match (operation.oracle)(request, work).reply.number {
        0 => [0; 4],
        12 => (operation.lengths)(request),
        _ => [3; 4],
    }
}

/// Runs the requests of one operation, before them those chosen by hand. In a self check the oracle answers twice,
/// which shows that the requests are made and answered the same each time.
pub fn row(operation: &Operation, options: &Options, work: &mut Lent<u64>) -> Row {
    let mut row = Row::new(operation.name);
    let ours = operation.asked(options);
    let mut chosen = Vec::new();
    if options.first == 0 {
        chosen.extend((operation.chosen)());
        chosen.extend(chosen::around_listed(operation));
    }
    for (place, chosen) in chosen.into_iter().enumerate() {
        let request = chosen.with_room(operation, work);
        compare(&mut row, &request, work, (operation, ours), || {
            format!("chosen request {place} of {}", operation.name)
        });
    }
    for number in options.range() {
        let request = request(operation, options.seed, number, work);
        compare(&mut row, &request, work, (operation, ours), || {
            format!(
                "compare --only {} --seed {} --first {number} --requests 1",
                operation.name, options.seed
            )
        });
    }
    row
}

/// Asks both for one request, which `name` says how to find again; then ours under another
/// ceiling (ceilings.rs).
pub fn compare(
    row: &mut Row,
    request: &Request,
    work: &mut Lent<u64>,
    (operation, ours): (&Operation, Ask),
    name: impl FnOnce() -> String,
) {
    let expected = (operation.oracle)(request, work);
    let before = (
        request.vertices.clone(),
        request.facets.clone(),
        request.caps.clone(),
    );
    let got = ours(request, work);
    count(row, request, operation, &expected);
    let again = ceilings::asked_again(request, work, ours, &got);
    row.again += u64::from(again.is_some());
    let again = again.unwrap_or_default();
    let inputs_stand = same(&before.0, &request.vertices)
        && same(&before.1, &request.facets)
        && same(&before.2, &request.caps);
    if got != expected || !again.is_empty() || !inputs_stand {
        *row.families.entry(request.family).or_default() += 1;
        row.differs(request.size(), || {
            format!(
                "{}\n{}{}{again}inputs {}",
                name(),
                request.describe(),
                difference(("ours", &got), ("oracle", &expected)),
                if inputs_stand { "unchanged" } else { "CHANGED" }
            )
        });
    }
}

/// Enters a request and the oracle's answer in the row's counts.
fn count(row: &mut Row, request: &Request, operation: &Operation, expected: &Answer) {
    row.requests += 1;
    row.replies[expected.reply.number as usize] += 1;
    if let Some(point) = early::point(operation, request, expected) {
        row.early[point] += 1;
    }
    if expected.reply.number == 2 {
        for (count, over) in row.over.iter_mut().zip(ceilings::over(request)) {
            *count += u64::from(over);
        }
    }
}

fn same<T: Cell>(a: &[T], b: &[T]) -> bool {
    a.iter().map(|x| x.bits()).eq(b.iter().map(|x| x.bits()))
}

/// Where two answers part, each with the name of what gave it.
pub fn difference((one, got): (&str, &Answer), (other, expected): (&str, &Answer)) -> String {
    let mut text = format!("{one:<6} {:x?} {:?}\n", got.reply, got.fault);
    text += &format!("{other:<6} {:x?} {:?}\n", expected.reply, expected.fault);
    for (output, (a, b)) in got.outputs.iter().zip(&expected.outputs).enumerate() {
        if let Some(at) = a.iter().zip(b).position(|(x, y)| x != y) {
            text += &format!(
                "output {output} element {at}: {one} {:016x}, {other} {:016x}\n",
                a[at], b[at]
            );
        }
    }
    text
}
