//! Replies, and how outputs and work room end.

/// What an operation answers: document 01's number, 0 for done, and its values.
///
/// Done: the lengths written, in elements. 7 and 12: the need. 9: the pair.
/// 10 and 11: the place. Values that a reply does not use are 0.
#[derive(Clone, Copy, Debug, PartialEq, Eq)]
pub struct Reply {
    pub number: u32,
    pub values: [u64; 4],
}

impl Reply {
    pub fn done(lengths: &[usize]) -> Self {
        let mut values = [0; 4];
        for (value, &length) in values.iter_mut().zip(lengths) {
            *value = length as u64;
        }
        Reply { number: 0, values }
    }

    pub fn refused(number: u32) -> Self {
        Reply {
            number,
            values: [0; 4],
        }
    }

    pub fn refused_with(number: u32, value: u64) -> Self {
        Reply {
            number,
            values: [value, 0, 0, 0],
        }
    }
}

/// Test 12 for one output: "an output is shorter than the result".
pub fn room<T>(result: &[T], output: &[T]) -> Result<(), Reply> {
    if output.len() < result.len() {
        return Err(Reply::refused_with(12, result.len() as u64));
    }
    Ok(())
}

/// "an output holds the result at its front and its old contents behind"
pub fn write_front<T: Copy>(result: &[T], output: &mut [T]) {
    output[..result.len()].copy_from_slice(result);
}

/// "Work room ends zero, refused or done": the whole slice, on every path.
pub fn finish(outcome: Result<Reply, Reply>, work: &mut [u64]) -> Reply {
    work.fill(0);
    match outcome {
        Ok(reply) | Err(reply) => reply,
    }
}

/// Test 12 and the writing of a mesh, the end of clip, clean and caps.
pub fn write_mesh(
    vertices: &[f64],
    facets: &[u32],
    out_vertices: &mut [f64],
    out_facets: &mut [u32],
) -> Result<Reply, Reply> {
    room(vertices, out_vertices)?;
    room(facets, out_facets)?;
    write_front(vertices, out_vertices);
    write_front(facets, out_facets);
    Ok(Reply::done(&[vertices.len(), facets.len()]))
}
