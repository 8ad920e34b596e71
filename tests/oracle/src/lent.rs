//! For tests: each operation called with ample room, its results as lists.

use crate::{Extents, Reply};

const WORK: usize = 1 << 22;
const OUTPUT: usize = 1 << 16;
/// Fills outputs and work room before a call, to see what a call leaves alone.
const JUNK: u64 = 0x5ca1_ab1e;

/// The office's ceiling, for the tests that are not about ceilings.
pub const OFFICE: u64 = 65_536;

pub type Mesh = (Vec<f64>, Vec<u32>);

/// Runs an operation that writes a mesh. Checks the work room and, on a refusal
/// or behind the result, the old contents.
fn mesh(run: impl FnOnce(&mut [u64], &mut [f64], &mut [u32]) -> Reply) -> Result<Mesh, Reply> {
    let old = f64::from_bits(JUNK);
    let (mut work, mut v, mut f) = (vec![JUNK; WORK], vec![old; OUTPUT], vec![7; OUTPUT]);
    let reply = run(&mut work, &mut v, &mut f);
    assert!(work.iter().all(|&word| word == 0), "work room ends zero");
    let lengths = if reply.number == 0 {
        reply.values
    } else {
        [0; 4]
    };
    assert!(v[lengths[0] as usize..].iter().all(|x| x.to_bits() == JUNK));
    assert!(f[lengths[1] as usize..].iter().all(|&x| x == 7));
    if reply.number != 0 {
        return Err(reply);
    }
    v.truncate(lengths[0] as usize);
    f.truncate(lengths[1] as usize);
    Ok((v, f))
}

pub fn clip(v: &[f64], f: &[u32], extents: &Extents, eps: f64) -> Result<Mesh, Reply> {
    mesh(|work, ov, of| crate::clip(v, f, extents, eps, OFFICE, work, ov, of))
}

pub fn clean(v: &[f64], f: &[u32], eps: f64) -> Result<Mesh, Reply> {
    mesh(|work, ov, of| crate::clean(v, f, eps, OFFICE, work, ov, of))
}

#[allow(clippy::too_many_arguments)]
pub fn caps(
    v: &[f64],
    f: &[u32],
    list: &[u64],
    extents: &Extents,
    eps: f64,
    resolution: f64,
    mode: u32,
) -> Result<Mesh, Reply> {
    mesh(|work, ov, of| {
        crate::caps(
            v, f, list, extents, eps, resolution, mode, OFFICE, work, ov, of,
        )
    })
}

/// Candidates, face lists, constraints, open edges.
pub fn candidates(
    v: &[f64],
    f: &[u32],
    extents: &Extents,
    eps: f64,
    resolution: f64,
) -> Result<[Vec<u64>; 4], Reply> {
    // 256 segments on each axis would need more; no test here has that.
    let mut work = vec![JUNK; WORK];
    let mut out: [Vec<u64>; 4] = std::array::from_fn(|_| vec![JUNK; OUTPUT]);
    let [c, l, k, e] = &mut out;
    let reply = crate::candidates(
        v, f, extents, eps, resolution, OFFICE, &mut work, c, l, k, e,
    );
    assert!(work.iter().all(|&word| word == 0), "work room ends zero");
    if reply.number != 0 {
        assert!(out.iter().flatten().all(|&word| word == JUNK));
        return Err(reply);
    }
    for (list, length) in out.iter_mut().zip(reply.values) {
        assert!(list[length as usize..].iter().all(|&word| word == JUNK));
        list.truncate(length as usize);
    }
    Ok(out)
}

/// Places (bits aside) of points as one list of coordinates.
pub fn flat(points: &[[f64; 3]]) -> Vec<f64> {
    points.concat()
}

/// Equal bit for bit.
pub fn same_bits(a: &[f64], b: &[f64]) -> bool {
    a.len() == b.len() && a.iter().zip(b).all(|(x, y)| x.to_bits() == y.to_bits())
}
