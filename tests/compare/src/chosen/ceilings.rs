//! Requests chosen by hand for the caller's ceiling (document 02, E2): counts at it, one below
//! and one above, each list by itself, and test 2 in its place behind 1 and before all others.

use super::{power, Chosen, Room, UNIT};
use crate::caps;
use crate::ceilings::{HANDHELD, LISTED, OFFICE};
use crate::meshes::lattice;
use crate::operation::Operation;
use crate::request::Request;

/// A request under this ceiling.
fn under(ceiling: usize, request: &Request, room: Room) -> Chosen {
    let mut request = request.clone();
    request.family = "ceilings";
    request.ceiling = ceiling as u64;
    Chosen { request, room }
}

/// Small ones from a request that is done and has more vertices than facets.
pub fn around(base: &Request) -> Vec<Chosen> {
    let (vertices, facets) = (base.vertices.len() / 3, base.facets.len() / 3);
    assert!(vertices > facets && facets > 1);
    let mut all = Vec::new();
    for ceiling in [facets - 1, facets, vertices - 1, vertices, vertices + 1] {
        all.push(under(ceiling, base, Room::Exact));
    }
    for ceiling in LISTED.into_iter().filter(|&ceiling| ceiling != OFFICE) {
        all.push(under(ceiling as usize, base, Room::Exact));
    }
    all.extend(more_facets(base, vertices));
    all.extend(few(base));
    all.extend(in_order(base, vertices));
    // Admitted: 7 and 12 are the mesh's own.
    all.push(under(vertices, base, Room::ShortWork));
    all.push(under(vertices, base, Room::NoOutput));
    all
}

/// The same with one facet more than it has vertices: both over, facets alone, none.
fn more_facets(base: &Request, vertices: usize) -> Vec<Chosen> {
    let mut many = base.clone();
    let again = base.facets.iter().copied().cycle();
    many.facets = again.take(3 * (vertices + 1)).collect();
    vec![
        under(vertices - 1, &many, Room::Exact),
        under(vertices, &many, Room::Exact),
        under(vertices, &many, Room::ShortWork),
        under(vertices + 1, &many, Room::Exact),
    ]
}

/// No vertex, one or two, with none to two facets of vertex 0, under 0, 1 and 2.
fn few(base: &Request) -> Vec<Chosen> {
    let mut all = Vec::new();
    for (vertices, facets, ceiling) in [
        (0, 0, 0),
        (1, 0, 0),
        // 2 before 3.
        (0, 1, 0),
        (0, 1, 1),
        (1, 1, 1),
        (2, 1, 1),
        (1, 2, 1),
        (1, 2, 2),
    ] {
        let mut request = base.clone();
        request.vertices.truncate(3 * vertices);
        request.facets = vec![0; 3 * facets];
        all.push(under(ceiling, &request, Room::Exact));
    }
    all
}

/// A mesh over its ceiling with one more fault: 1 comes first, all others behind.
fn in_order(base: &Request, vertices: usize) -> Vec<Chosen> {
    let changes: [fn(&mut Request); 7] = [
        |r| r.vertices.push(0.5),
        |r| r.facets.push(0),
        |r| r.facets[0] = u32::MAX,
        |r| r.vertices[7] = f64::INFINITY,
        |r| r.eps = 2.0,
        |r| r.extents[3] = r.extents[0],
        |r| r.resolution = power(-40),
    ];
    let changed = changes.into_iter().map(|change| {
        let mut request = base.clone();
        change(&mut request);
        under(vertices - 1, &request, Room::Exact)
    });
    let rooms = [Room::ShortWork, Room::NoWork, Room::NoOutput, Room::Nothing];
    let lent = rooms.map(|room| under(vertices - 1, base, room));
    changed.chain(lent).collect()
}

/// Large ones, for the comparison alone: all counts around what each listed ceiling admits, as
/// far as test 7, and around 4,096 with all that the operation does.
pub fn around_listed(operation: &Operation) -> Vec<Chosen> {
    let mut all = Vec::new();
    for ceiling in LISTED {
        for (vertices, facets) in counts_around(ceiling.min(OFFICE) as usize) {
            let lists = (vec![0.25; 3 * vertices], vec![0; 3 * facets]);
            let request = Request::new("ceilings", lists.0, lists.1, UNIT, 1e-10);
            all.push(under(ceiling as usize, &request, Room::Nothing));
        }
    }
    for (vertices, facets) in counts_around(HANDHELD as usize) {
        let mut request = handheld(vertices, facets);
        if operation.name == "caps" {
            caps::supply(&mut request);
        }
        all.push(under(HANDHELD as usize, &request, Room::Ample));
    }
    all
}

/// Both counts at this one, one below and one above.
fn counts_around(count: usize) -> Vec<(usize, usize)> {
    let around = || count.saturating_sub(1)..=count + 1;
    let beside = |vertices| around().map(move |facets| (vertices, facets));
    around().flat_map(beside).collect()
}

/// A wave of 4,096 facets that ends on the box's planes, with so many vertices and facets:
/// vertices that no facet uses behind it; a facet less, or one given again.
pub fn handheld(vertices: usize, facets: usize) -> Request {
    let (mut points, mut list) = lattice(64, 32, |u, v| {
        [u, v, 0.5 + 0.25 * (9.0 * u).sin() * (7.0 * v).cos()]
    });
    let loose = [0.25, 0.75, 0.5].into_iter().cycle();
    points.extend(loose.take((3 * vertices).saturating_sub(points.len())));
    list.extend_from_within(..3);
    list.truncate(3 * facets);
    assert!(points.len() == 3 * vertices && list.len() == 3 * facets);
    Request::new("handheld", points, list, UNIT, 1e-10)
}

#[cfg(test)]
mod tests {
    use crate::ceilings::over;
    use crate::chosen::around_listed;
    use crate::lent::{Lent, Old};
    use crate::OPERATIONS;
    use std::collections::BTreeMap;

    /// The stored ones meet 2 by each list, its neighbours in the order, and results that are
    /// written at the ceiling; the large ones meet 2 and 7 under every ceiling, and at 4,096.
    #[test]
    fn each_kind_is_met() {
        let mut work = Lent::new(0, Old::Junk);
        for operation in OPERATIONS {
            let mut met: BTreeMap<(u64, u32), usize> = BTreeMap::new();
            let mut lists = [false; 5];
            let stored = (operation.chosen)().into_iter();
            for chosen in stored.filter(|chosen| chosen.request.family == "ceilings") {
                let request = chosen.with_room(operation, &mut work);
                let number = (operation.oracle)(&request, &mut work).reply.number;
                *met.entry((0, number)).or_default() += 1;
                if number == 2 {
                    let over = over(&request);
                    lists = [0, 1, 2, 3, 4].map(|place| lists[place] || over[place]);
                }
            }
            assert_eq!(lists, [true, true, true, false, false]);
            for number in [0, 1, 2, 3, 7, 12] {
                assert!(met.contains_key(&(0, number)), "{} {met:?}", operation.name);
            }
            for chosen in around_listed(operation) {
                let request = chosen.with_room(operation, &mut work);
                let number = (operation.oracle)(&request, &mut work).reply.number;
                *met.entry((request.ceiling, number)).or_default() += 1;
            }
            // Of three by three counts five are over; of two by two, under 0, three.
            for (ceiling, refused, lent) in [
                (1, 5, 3),
                (4_096, 10, 4),
                (65_536, 5, 4),
                (65_537, 5, 4),
                (1 << 32, 5, 4),
                (u64::MAX, 5, 4),
            ] {
                assert_eq!(met[&(ceiling, 2)], refused, "{} {met:?}", operation.name);
                assert_eq!(met[&(ceiling, 7)], lent, "{} {met:?}", operation.name);
            }
            assert!(met.contains_key(&(4_096, 0)), "{} {met:?}", operation.name);
        }
    }
}
