//! Requests at full size: 65,536 vertices, 65,536 facets, 1,048,576 supplied triangles, 256
//! segments on each axis; and requests a step beyond, which test 2 refuses. Each is under
//! 65,536, 65,537 or 2^64 - 1, and what is done is asked again under the other two, which must
//! change nothing. Then the handheld's: 4,096 vertices and facets, and one more of either.

mod boundary_components;

use crate::ceilings::{differs_under, HANDHELD, OFFICE};
use crate::lent::Lent;
use crate::meshes::{self, lattice};
use crate::operation::{compare, fitted, Answer, Ask, Operation};
use crate::random::Random;
use crate::report::Row;
use crate::request::Request;
use crate::triangulation::{by_face, sound_list};
use crate::{candidates, chosen, Options};
use std::time::Instant;

const MOST: usize = 65_536;
const MOST_CAPS: usize = 1_048_576;
const UNIT: [f64; 6] = [0.0, 0.0, 0.0, 1.0, 1.0, 1.0];
/// Ceilings that admit full size.
const CEILINGS: [u64; 3] = [OFFICE, OFFICE + 1, u64::MAX];
/// Requests a step beyond, of each operation.
const BEYOND: u64 = 120;

type Mesh = (Vec<f64>, Vec<u32>);

/// A surface of exactly 65,536 facets over the square; `at` places its corners.
fn sheet(at: impl FnMut(f64, f64) -> [f64; 3]) -> Mesh {
    lattice(256, 128, at)
}

/// A terrain that reaches this far around the box's middle; at 1 it ends on the box's planes.
fn terrain(random: &mut Random, reach: f64, height: f64) -> Mesh {
    let over = |t: f64| 0.5 + reach * (t - 0.5);
    sheet(|u, v| [over(u), over(v), 0.5 + height * random.between(-0.5, 0.5)])
}

fn wave(reach: f64, height: f64) -> Mesh {
    let over = |t: f64| 0.5 + reach * (t - 0.5);
    sheet(|u, v| {
        [
            over(u),
            over(v),
            0.5 + height * (9.0 * u).sin() * (7.0 * v).cos(),
        ]
    })
}

fn sphere(radius: f64) -> Mesh {
    sheet(|u, v| {
        let (a, b) = (u * std::f64::consts::TAU, v * std::f64::consts::PI);
        [a.cos() * b.sin(), a.sin() * b.sin(), b.cos()].map(|x| 0.5 + radius * x)
    })
}

/// Facets over vertices at random.
fn soup(random: &mut Random, spread: f64) -> Mesh {
    let mut coordinate = || 0.5 + spread * random.between(-1.0, 1.0);
    let vertices = (0..3 * MOST).map(|_| coordinate()).collect();
    (vertices, meshes::random_facets(random, MOST, MOST))
}

/// The first facets of a mesh, each with vertices of its own.
fn apart((vertices, facets): Mesh) -> Mesh {
    let corners = &facets[..MOST / 3 * 3];
    let point = |&id: &u32| vertices[3 * id as usize..3 * id as usize + 3].to_vec();
    (
        corners.iter().flat_map(point).collect(),
        (0..corners.len() as u32).collect(),
    )
}

/// Facets with vertices of their own, each flat on a face of the box.
fn on_faces(random: &mut Random) -> Mesh {
    let mut vertices = Vec::new();
    for facet in 0..MOST / 3 {
        let middle = [0; 3].map(|_| random.between(0.05, 0.95));
        for _ in 0..3 {
            let mut point = middle.map(|x| x + 0.01 * random.between(-1.0, 1.0));
            point[facet % 3] = (facet % 2) as f64;
            vertices.extend(point);
        }
    }
    (vertices, (0..(MOST / 3 * 3) as u32).collect())
}

/// Fills a mesh up to full size: facets given again from another corner on, vertices that no
/// facet uses, the first thousand of them on a box side.
fn filled(name: &'static str, random: &mut Random, mesh: Mesh, eps: f64) -> Request {
    let (mut vertices, mut facets) = mesh;
    while facets.len() < 3 * MOST {
        let at = facets.len() / 2 / 3 * 3;
        let again = [facets[at + 1], facets[at + 2], facets[at]];
        facets.extend(again);
    }
    let loose = MOST - vertices.len() / 3;
    for place in 0..loose {
        let point = [0; 3].map(|_| random.between(0.1, 0.9));
        vertices.extend(if place < 1000 {
            [0.0, 1.0, point[2]]
        } else {
            point
        });
    }
    assert!(vertices.len() == 3 * MOST && facets.len() == 3 * MOST);
    Request::new(name, vertices, facets, UNIT, eps)
}

fn clip(random: &mut Random) -> Vec<Request> {
    let eps = meshes::tolerance(&UNIT);
    let meshes = [
        ("terrain across", terrain(random, 1.4, 0.8)),
        ("terrain inside", terrain(random, 0.9, 0.2)),
        ("wave across", wave(1.2, 0.7)),
        ("sphere across", sphere(0.6)),
        ("large soup", soup(random, 1.0)),
        ("small soup", soup(random, 0.55)),
    ];
    meshes
        .map(|(name, mesh)| filled(name, random, mesh, eps))
        .into()
}

fn clean(random: &mut Random) -> Vec<Request> {
    let meshes = [
        ("terrain", terrain(random, 1.0, 0.5), 1e-10),
        (
            "terrain, facets apart",
            apart(terrain(random, 1.0, 0.5)),
            1e-10,
        ),
        ("wave, coarse cells", wave(1.0, 0.5), 1.0 / 64.0),
        ("soup, coarse cells", soup(random, 0.5), 1.0 / 256.0),
        ("soup, facets apart", apart(soup(random, 0.5)), 1e-10),
        ("sphere", sphere(0.5), 1e-10),
    ];
    meshes
        .map(|(name, mesh, eps)| filled(name, random, mesh, eps))
        .into()
}

/// Meshes for candidates, with the segments of an axis.
fn closing(random: &mut Random) -> Vec<Request> {
    let eps = meshes::tolerance(&UNIT);
    let meshes = [
        ("terrain, 256 segments", terrain(random, 1.0, 0.5), 256.0),
        ("wave, 256 segments", wave(1.0, 0.4), 256.0),
        ("wave, 1 segment", wave(1.0, 0.4), 1.0),
        ("terrain, 64 segments", terrain(random, 1.0, 0.9), 64.0),
        ("facets on faces, 16 segments", on_faces(random), 16.0),
    ];
    let made = meshes.map(|(name, mesh, segments)| {
        let mut request = filled(name, random, mesh, eps);
        request.resolution = 1.0 / segments;
        request
    });
    made.into()
}

/// A triangulation of every face by our library's candidates, filled up to full size with
/// triangles given again or at random.
fn supplied(random: &mut Random, request: &Request, work: &mut Lent<u64>, wild: bool) -> Vec<u64> {
    let mut request = request.clone();
    request.work = (candidates::OPERATION.need)(&request) as usize;
    let answer = fitted(candidates::OPERATION.ours, &mut request, work);
    let mut outputs = answer.outputs.into_iter().zip(answer.reply.values);
    let lists = [(); 4].map(|()| {
        let (mut output, length) = outputs.next().expect("four lists");
        output.truncate(length as usize);
        output
    });
    let mut list = sound_list(&lists);
    let faces = by_face(&lists[1]);
    let sound = list.len();
    while list.len() < MOST_CAPS {
        let mut more = list[random.below(sound)];
        more[1..].rotate_left(random.below(3));
        if wild {
            let ids = faces[more[0] as usize];
            let at = random.below(ids.len() - 2);
            more = [more[0], ids[at], ids[at + 1], ids[at + 2]];
        }
        list.push(more);
    }
    list.truncate(MOST_CAPS);
    list.sort_by_key(|triangle| triangle[0]);
    list.concat()
}

fn caps(random: &mut Random, work: &mut Lent<u64>) -> Vec<Request> {
    let mut requests = Vec::new();
    // Where few candidates share a million triangles, the reference's flood is quadratic.
    let fine = |request: &Request| request.resolution < 1.0 / 32.0;
    for (place, mut request) in closing(random).into_iter().filter(fine).enumerate() {
        request.caps = supplied(random, &request, work, place == 2);
        request.mode = 1 + (place % 2) as u32;
        requests.push(request.clone());
        // The other mode; then the last triangle is faulty; then none is looked at.
        let last = request.caps.len() - 1;
        match place {
            0 => request.mode = 2,
            1 => request.caps[last] = u64::MAX,
            _ => request.mode = 0,
        }
        requests.push(request);
    }
    requests
}

/// A mesh of the handheld's size under its ceiling; one more vertex, one more facet and both
/// under it, and both under a ceiling that admits them.
fn handhelds(operation: &Operation) -> Vec<Request> {
    let most = HANDHELD as usize;
    let sizes = [
        (most, most, HANDHELD),
        (most + 1, most, HANDHELD),
        (most, most + 1, HANDHELD),
        (most + 1, most + 1, HANDHELD),
        (most + 1, most + 1, HANDHELD + 1),
        (most + 1, most + 1, OFFICE),
    ];
    let made = sizes.map(|(vertices, facets, ceiling)| {
        let mut request = chosen::handheld(vertices, facets);
        request.resolution = 1.0 / 16.0;
        request.ceiling = ceiling;
        if operation.name == "caps" {
            crate::caps::supply(&mut request);
        }
        request
    });
    made.into()
}

/// One element or item more than test 2 allows in one list.
fn beyond(operation: &Operation, number: u64) -> Request {
    let mut request = Request::new("a step beyond", vec![0.25; 9], vec![0, 1, 2], UNIT, 0.0);
    match number % 3 {
        0 => request.vertices.resize(3 * (MOST + 1), 0.5),
        1 => request.facets.resize(3 * (MOST + 1), 0),
        _ if operation.name == "caps" => request.caps.resize(4 * (MOST_CAPS + 1), 0),
        _ => {
            request.vertices.resize(3 * (MOST + 1), -0.0);
            request
                .facets
                .resize(3 * (MOST + 1 + number as usize), u32::MAX);
        }
    }
    request.ceiling = CEILINGS[number as usize / 3 % 3];
    request.work = number as usize;
    request.outputs = [number as usize; 4];
    request
}

/// Asks ours under the other ceilings that admit full size, where the request's own does.
fn under_all(row: &mut Row, request: &Request, work: &mut Lent<u64>, ours: Ask, got: &Answer) {
    if request.ceiling < OFFICE {
        return;
    }
    for ceiling in CEILINGS
        .into_iter()
        .filter(|&other| other != request.ceiling)
    {
        let text = differs_under(ceiling, request, work, ours, got);
        row.again += 1;
        if !text.is_empty() {
            row.differs(request.size(), || format!("{}\n{text}", request.family));
        }
    }
}

/// Compares a request lent what it needs and prints its times.
fn timed(
    row: &mut Row,
    mut request: Request,
    work: &mut Lent<u64>,
    (operation, ours): (&Operation, Ask),
) {
    request.work = (operation.need)(&request) as usize;
    fitted(ours, &mut request, work);
    request.outputs = request.outputs.map(|length| length + 5);
    let before = row.differences;
    let started = Instant::now();
    let got = ours(&request, work);
    let seconds = started.elapsed().as_secs_f64();
    under_all(row, &request, work, ours, &got);
    let started = Instant::now();
    compare(row, &request, work, (operation, ours), || {
        format!("full-size request {} of {}", request.family, operation.name)
    });
    println!(
        "{:<20} {:<30} mode {} ceiling {} reply {} {:?} ours {seconds:.2} s, both {:.2} s{}",
        operation.name,
        request.family,
        request.mode,
        request.ceiling,
        got.reply.number,
        got.reply.values,
        started.elapsed().as_secs_f64(),
        if row.differences == before {
            ""
        } else {
            " DIFFERS"
        }
    );
}

/// Compares the full-size requests of an operation and prints the time of each.
pub fn row(operation: &Operation, options: &Options, work: &mut Lent<u64>) -> Row {
    let mut row = Row::new(operation.name);
    let ours = operation.asked(options);
    let mut random = Random::new(options.seed, "full", operation.number);
    let requests = match operation.name {
        "clip" => clip(&mut random),
        "clean" => clean(&mut random),
        "candidates" => closing(&mut random),
        "boundary_components" => boundary_components::requests(&mut random),
        _ => caps(&mut random, work),
    };
    for (place, mut request) in requests.into_iter().enumerate() {
        request.ceiling = CEILINGS[place % 3];
        timed(&mut row, request, work, (operation, ours));
    }
    for request in handhelds(operation) {
        timed(&mut row, request, work, (operation, ours));
    }
    for number in 0..BEYOND {
        let request = beyond(operation, number);
        compare(&mut row, &request, work, (operation, ours), || {
            format!("request {number} a step beyond, of {}", operation.name)
        });
    }
    row
}
