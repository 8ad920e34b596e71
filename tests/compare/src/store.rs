//! Stored answers: a sample of requests with the oracle's answers, in a file that the
//! program crates/replay reads. Our own library is not asked. A file is checked by asking
//! the oracle again.
//!
//! The file is a row of 64-bit little-endian words: a header of four words, then the
//! requests one after the other. crates/replay/README.md has the layout as a table.

use crate::lent::{Cell, Lent, Old};
use crate::operation::{self, Answer, Operation};
use crate::request::Request;
use crate::{boundary_components, tolerance, Options, OPERATIONS};
use std::collections::BTreeMap;
use std::process::ExitCode;

/// "yongpham", as the first word of the file.
const MAGIC: u64 = u64::from_le_bytes(*b"yongpham");
/// 1 had a head of 24 words, without a ceiling.
const FORMAT: u64 = 2;
/// Words in front of the lists of a request, those behind the vertex count free.
const HEAD: usize = 32;
const TOLERANCE: u64 = 1;
/// Its requests have a count of vertices in place of coordinates.
const BOUNDARY_COMPONENTS: u64 = boundary_components::OPERATION.number;
/// How many boxes the file gets.
const TOLERANCES: usize = 250;
/// A mesh operation that the program replays, and how many of its requests the file gets beside
/// those chosen by hand: the file is small, so they are.
struct Replayed {
    name: &'static str,
    /// Requests in all.
    most: usize,
    /// Elements of lists and outputs together, of a generated request.
    largest: usize,
    /// Generated requests of a family with the same reply.
    of_a_kind: usize,
    /// Whether generated requests are to be refused too, or done with nothing.
    any_reply: bool,
}

const REPLAYED: &[Replayed] = &[
    Replayed {
        name: "clip",
        most: 285,
        largest: 150,
        of_a_kind: 15,
        any_reply: true,
    },
    Replayed {
        name: "clean",
        most: 285,
        largest: 150,
        of_a_kind: 15,
        any_reply: true,
    },
    // A result is long: the refusals are chosen by hand, and what is generated writes.
    Replayed {
        name: "candidates",
        most: 208,
        largest: 280,
        of_a_kind: 2,
        any_reply: false,
    },
    Replayed {
        name: "caps",
        most: 285,
        largest: 500,
        of_a_kind: 5,
        any_reply: true,
    },
    Replayed {
        name: "boundary_components",
        most: 200,
        largest: 100,
        of_a_kind: 4,
        any_reply: true,
    },
];

/// What the program has room for: elements of each list and output, words of work room.
const LARGEST_LIST: usize = 1_024;
const LARGEST_WORK: usize = 20_480;
const LARGEST_FILE: usize = 131_072;
/// How many requests are looked at for a sample.
const LOOKED_AT: u64 = 200_000;

/// A NaN has no one pattern in Rattle, so a request with one is left to the comparison.
fn has_nan(request: &Request) -> bool {
    let numbers = [request.eps, request.resolution];
    let lists = [&request.vertices[..], &request.extents, &numbers];
    lists.concat().iter().any(|x| x.is_nan())
}

fn fits(request: &Request, answer: &Answer) -> bool {
    let lists = [
        request.vertices.len(),
        request.facets.len(),
        request.caps.len(),
    ];
    let outputs = answer.outputs.iter().map(Vec::len);
    request.work <= LARGEST_WORK
        && lists
            .into_iter()
            .chain(outputs)
            .all(|length| length <= LARGEST_LIST)
}

/// One request and its answer as words.
fn record(number: u64, request: &Request, answer: &Answer) -> Vec<u64> {
    let mut outputs = [0; 4];
    for (place, output) in answer.outputs.iter().enumerate() {
        outputs[place] = output.len() as u64;
    }
    let lengths = [
        &request.vertices.len(),
        &request.facets.len(),
        &request.caps.len(),
    ];
    let mut words = vec![0, number];
    words.extend(lengths.map(|&length| length as u64));
    words.push(request.mode.into());
    words.extend(request.extents.map(f64::to_bits));
    words.extend([request.eps.to_bits(), request.resolution.to_bits()]);
    words.push(request.work as u64);
    words.extend(outputs);
    words.push(answer.reply.number.into());
    words.extend(answer.reply.values);
    words.push(request.ceiling);
    words.push(request.vertex_count.unwrap_or(0));
    words.resize(HEAD, 0);
    words.extend(request.vertices.iter().map(|x| x.bits()));
    words.extend(request.facets.iter().map(|x| x.bits()));
    words.extend(&request.caps);
    words.extend(answer.outputs.concat());
    words[0] = words.len() as u64;
    words
}

/// The request of a record, as `record` writes it.
fn request(words: &[u64]) -> Request {
    let length = |place: usize| words[place] as usize;
    let double = |place: usize| f64::from_bits(words[place]);
    let (v, f, c) = (HEAD + length(2), length(3), length(4));
    let vertices = words[HEAD..v].iter().map(|&bits| f64::from_bits(bits));
    let facets = words[v..v + f].iter().map(|&number| number as u32);
    let extents = [6, 7, 8, 9, 10, 11].map(double);
    let mut request = Request::new(
        "stored",
        vertices.collect(),
        facets.collect(),
        extents,
        double(12),
    );
    request.caps = words[v + f..v + f + c].to_vec();
    request.resolution = double(13);
    request.mode = words[5] as u32;
    request.ceiling = words[24];
    request.vertex_count = (words[1] == BOUNDARY_COMPONENTS).then_some(words[25]);
    request.work = length(14);
    request.outputs = [15, 16, 17, 18].map(length);
    request
}

/// The oracle's answer to a request of the operation with this number.
fn ask(number: u64, request: &Request, work: &mut Lent<u64>) -> Option<Answer> {
    if number == TOLERANCE {
        return Some(Answer {
            reply: oracle::tolerance(&request.extents),
            outputs: Vec::new(),
            fault: None,
        });
    }
    let operation = OPERATIONS.iter().find(|o| o.number == number)?;
    Some((operation.oracle)(request, work))
}

/// Asks the oracle again for each request of a file, and compares the records whole.
pub fn check(file: &str) -> ExitCode {
    let bytes = match std::fs::read(file) {
        Ok(bytes) => bytes,
        Err(error) => {
            eprintln!("compare: {file}: {error}");
            return ExitCode::FAILURE;
        }
    };
    let word = |bytes: &[u8]| u64::from_le_bytes(bytes.try_into().expect("eight bytes"));
    let words: Vec<u64> = bytes.chunks_exact(8).map(word).collect();
    let mut work = Lent::new(0, Old::ByPlace);
    let (mut requests, mut differences, mut rest) = (0, 0, &words[4..]);
    while !rest.is_empty() {
        let (stored, behind) = rest.split_at(rest[0] as usize);
        let asked = request(stored);
        let again = ask(stored[1], &asked, &mut work).map(|a| record(stored[1], &asked, &a));
        requests += 1;
        if again.as_deref() != Some(stored) {
            differences += 1;
            println!("request {} differs\n{}", requests - 1, asked.describe());
        }
        rest = behind;
    }
    println!("stored answers: {requests} requests, {differences} differ from the oracle's");
    let header = [MAGIC, FORMAT, requests, words.len() as u64];
    if differences == 0 && words[..4] == header && bytes.len() == 8 * words.len() {
        ExitCode::SUCCESS
    } else {
        ExitCode::FAILURE
    }
}

/// Requests with their answers, and how often each family got each reply.
struct Sample {
    name: &'static str,
    number: u64,
    records: Vec<Vec<u64>>,
    covered: BTreeMap<(&'static str, u32), usize>,
}

impl Sample {
    fn new(name: &'static str, number: u64) -> Self {
        Sample {
            name,
            number,
            records: Vec::new(),
            covered: BTreeMap::new(),
        }
    }

    fn add(&mut self, request: &Request, answer: &Answer) {
        assert!(
            !has_nan(request) && fits(request, answer),
            "{}",
            request.describe()
        );
        assert!(answer.fault.is_none());
        self.records.push(record(self.number, request, answer));
        *self
            .covered
            .entry((request.family, answer.reply.number))
            .or_default() += 1;
    }

    /// Whether a family with this reply has its share; every pair of the two gets some.
    fn has_enough(&self, request: &Request, answer: &Answer, share: usize) -> bool {
        let key = (request.family, answer.reply.number);
        self.covered.get(&key).is_some_and(|&had| had >= share)
    }

    fn print(&self) {
        let words: usize = self.records.iter().map(Vec::len).sum();
        println!(
            "{}: {} requests, {words} words",
            self.name,
            self.records.len()
        );
        for ((family, reply), count) in &self.covered {
            println!("    {family}, reply {reply}: {count}");
        }
    }
}

fn tolerance_sample(options: &Options) -> Sample {
    let mut sample = Sample::new("tolerance", TOLERANCE);
    let mut work = Lent::new(0, Old::ByPlace);
    let generated = (0..).map(|number| tolerance::any(options.seed, number));
    for request in tolerance::chosen().into_iter().chain(generated) {
        if sample.records.len() >= options.count.min(TOLERANCES) {
            break;
        }
        if !has_nan(&request) {
            let answer = ask(TOLERANCE, &request, &mut work).expect("the oracle has tolerance");
            sample.add(&request, &answer);
        }
    }
    sample
}

fn mesh_sample(operation: &Operation, replayed: &Replayed, options: &Options) -> Sample {
    let mut sample = Sample::new(operation.name, operation.number);
    let mut work = Lent::new(0, Old::ByPlace);
    for chosen in (operation.chosen)() {
        let request = chosen.with_room(operation, &mut work);
        let answer = (operation.oracle)(&request, &mut work);
        sample.add(&request, &answer);
    }
    for number in 0..LOOKED_AT {
        if sample.records.len() >= options.count.min(replayed.most) {
            break;
        }
        let request = operation::request(operation, options.seed, number, &mut work);
        let size = request.size() + request.outputs.iter().sum::<usize>();
        if size > replayed.largest || request.work > LARGEST_WORK || has_nan(&request) {
            continue;
        }
        let answer = (operation.oracle)(&request, &mut work);
        let writes = answer.reply.number == 0 && answer.reply.values[0] > 0;
        let wanted = replayed.any_reply || writes;
        if wanted && !sample.has_enough(&request, &answer, replayed.of_a_kind) {
            sample.add(&request, &answer);
        }
    }
    sample
}

/// Writes the file and says what it covers.
pub fn write(file: &str, options: &Options) -> ExitCode {
    let mut samples = vec![tolerance_sample(options)];
    for replayed in REPLAYED {
        let operation = OPERATIONS.iter().find(|o| o.name == replayed.name);
        let operation = operation.expect("an operation of this name");
        samples.push(mesh_sample(operation, replayed, options));
    }
    let records: Vec<&Vec<u64>> = samples.iter().flat_map(|sample| &sample.records).collect();
    let words: usize = 4 + records.iter().map(|record| record.len()).sum::<usize>();
    if words > LARGEST_FILE {
        eprintln!("compare: {words} words, and the program has room for {LARGEST_FILE}");
        return ExitCode::FAILURE;
    }
    let header = vec![MAGIC, FORMAT, records.len() as u64, words as u64];
    let bytes: Vec<u8> = std::iter::once(&header)
        .chain(records)
        .flatten()
        .flat_map(|word| word.to_le_bytes())
        .collect();
    if let Err(error) = std::fs::write(file, bytes) {
        eprintln!("compare: {file}: {error}");
        return ExitCode::FAILURE;
    }
    samples.iter().for_each(Sample::print);
    println!("{words} words");
    ExitCode::SUCCESS
}
