//! Wavefront OBJ, the part that a triangle surface needs.
//!
//! Read are `v` lines (x, y, z; up to five further numbers are left alone) and `f` lines of three corners (`a`, `a/b`, `a/b/c`, `a//c`;
//! a negative number counts back from the last vertex so far). The other lines that OBJ knows are passed over, and so is what follows
//! a `#`. A line of any other kind is not passed over: it might be a vertex that someone's program spelt in its own way, and all numbers
//! behind it would name the wrong vertices. A face of more corners is not split here: which diagonal is taken changes the volume.

use super::{Surface, Unread};
use crate::limits;
use crate::mesh::Mesh;
use crate::text::quoted;
use std::io::{BufRead, Read, Write};

/// What a corner that names no vertex is handed to the library as. It is not below any
/// vertex count that the library admits, so the library answers refusal 3.
const NO_VERTEX: u32 = u32::MAX;

/// First words of lines that carry no vertex and no facet.
const PASSED_OVER: [&str; 46] = [
    "vt",
    "vn",
    "vp",
    "o",
    "g",
    "s",
    "mg",
    "l",
    "p",
    "usemtl",
    "mtllib",
    "usemap",
    "maplib",
    "cstype",
    "deg",
    "bmat",
    "step",
    "curv",
    "curv2",
    "surf",
    "parm",
    "trim",
    "hole",
    "scrv",
    "sp",
    "end",
    "con",
    "bevel",
    "c_interp",
    "d_interp",
    "lod",
    "shadow_obj",
    "trace_obj",
    "ctech",
    "stech",
    "bsp",
    "bzp",
    "cdc",
    "cdp",
    "res",
    "call",
    "csh",
    "vi",
    "tg",
    "vs",
    "param",
];

/// Numbers that a vertex may have: a place, and a weight or a colour.
const NUMBERS: usize = 8;

/// As much as the library admits, and one more.
pub fn read(file: impl BufRead) -> Result<Surface, Unread> {
    read_up_to(file, limits::ELEMENTS)
}

/// Of vertices and of facets as many as given are kept.
pub fn read_up_to(mut file: impl BufRead, most: usize) -> Result<Surface, Unread> {
    let mut surface = Surface::default();
    let mut bytes = Vec::new();
    for number in 1.. {
        bytes.clear();
        let taken = file
            .by_ref()
            .take(limits::LINE as u64 + 1)
            .read_until(b'\n', &mut bytes)
            .map_err(|why| Unread::whole(format!("cannot be read: {why}")))?;
        if taken == 0 {
            break;
        }
        read_line(&bytes, number, most, &mut surface).map_err(|(value, why)| Unread { line: Some(number), value, why })?;
    }
    Ok(surface)
}

/// The word at fault and what is wrong.
type Fault = (String, String);

fn fault<T>(value: &str, why: &str) -> Result<T, Fault> {
    let value = quoted(value);
    Err((value.clone(), format!("{value} {why}")))
}

fn read_line(bytes: &[u8], number: u64, most: usize, surface: &mut Surface) -> Result<(), Fault> {
    if bytes.len() > limits::LINE {
        let why = format!("the line is longer than {} bytes", limits::LINE);
        return Err((String::new(), why));
    }
    // Names and comments may be in any encoding.
    let line = String::from_utf8_lossy(bytes);
    // Some programs mark a file as UTF-8 by its first character.
    let line = if number == 1 { line.trim_start_matches('\u{feff}') } else { &line };
    let line = line.split('#').next().unwrap_or("").trim_ascii();
    let mut words = line.split_ascii_whitespace();
    let Some(kind) = words.next() else {
        return Ok(());
    };
    if line.ends_with('\\') {
        return fault(kind, "goes on in the next line, which is not read");
    }
    match kind {
        "v" => put_vertex(vertex(words)?, number, most, surface)?,
        "f" => {
            let corners: Vec<&str> = words.take(limits::LINE).collect();
            put_facet(&corners, number, most, surface)?;
        }
        _ if PASSED_OVER.contains(&kind) => {}
        "V" | "F" => return fault(kind, "begins no line of an OBJ file: a vertex is v, a facet is f, in small letters"),
        _ => return fault(kind, "begins no line of an OBJ file"),
    }
    Ok(())
}

/// Room for more; a machine that has none is told so.
fn reserve<T>(list: &mut Vec<T>, more: usize) -> Result<(), Fault> {
    list.try_reserve(more).map_err(|_| (String::new(), "there is not enough memory for the mesh up to here".into()))
}

fn put_vertex(point: [f64; 3], line: u64, most: usize, surface: &mut Surface) -> Result<(), Fault> {
    surface.vertices += 1;
    if surface.mesh.vertex_count() < most {
        reserve(&mut surface.mesh.vertices, 3)?;
        reserve(&mut surface.vertex_lines, 1)?;
        surface.mesh.vertices.extend(point);
        surface.vertex_lines.push(line);
    }
    Ok(())
}

fn put_facet(words: &[&str], line: u64, most: usize, surface: &mut Surface) -> Result<(), Fault> {
    let [a, b, c] = words else {
        let why = format!("a face has {} corners; only triangles are read", words.len());
        return Err((words.len().to_string(), why));
    };
    let mut facet = [0; 3];
    for (corner, word) in facet.iter_mut().zip([a, b, c]) {
        *corner = self::corner(word, surface.vertices)?;
        if *corner == NO_VERTEX && surface.no_vertex.is_none() {
            surface.no_vertex = Some((surface.mesh.facet_count(), quoted(word)));
        }
    }
    surface.facets += 1;
    if surface.mesh.facet_count() < most {
        reserve(&mut surface.mesh.facets, 3)?;
        reserve(&mut surface.facet_lines, 1)?;
        surface.mesh.facets.extend(facet);
        surface.facet_lines.push(line);
    }
    Ok(())
}

/// Three numbers. Infinite ones and `nan` are numbers here; the library turns them down.
fn vertex<'a>(words: impl Iterator<Item = &'a str>) -> Result<[f64; 3], Fault> {
    let mut numbers = Vec::new();
    for word in words {
        let Ok(number) = word.parse::<f64>() else {
            return fault(word, "is not a number");
        };
        numbers.push(number);
        if numbers.len() > NUMBERS {
            let why = format!("a vertex has more than {NUMBERS} numbers");
            return Err((quoted(word), why));
        }
    }
    match numbers[..] {
        [x, y, z, ..] => Ok([x, y, z]),
        _ => {
            let why = "a vertex has fewer than three coordinates";
            Err((numbers.len().to_string(), why.into()))
        }
    }
}

/// The vertex number, from 0, of a corner; only what stands before the first slash counts.
fn corner(word: &str, vertices: u64) -> Result<u32, Fault> {
    let digits = word.split('/').next().unwrap_or(word);
    let Ok(number) = digits.parse::<i128>() else {
        return fault(word, "is not a vertex number");
    };
    let place = if number < 0 { i128::from(vertices) + number } else { number - 1 };
    Ok(u32::try_from(place).unwrap_or(NO_VERTEX))
}

/// Coordinates are written as the shortest decimals that read back to the same bits.
pub fn write(mesh: &Mesh, mut file: impl Write) -> std::io::Result<()> {
    for point in mesh.vertices.chunks_exact(3) {
        writeln!(file, "v {:?} {:?} {:?}", point[0], point[1], point[2])?;
    }
    for facet in mesh.facets.chunks_exact(3) {
        let [a, b, c] = [facet[0], facet[1], facet[2]].map(|id| u64::from(id) + 1);
        writeln!(file, "f {a} {b} {c}")?;
    }
    file.flush()
}

#[cfg(test)]
mod tests {
    use super::*;

    fn parsed(text: &str) -> Mesh {
        match read(text.as_bytes()) {
            Ok(surface) => surface.mesh,
            Err(unread) => panic!("not read: {text}: {unread:?}"),
        }
    }

    fn refused(text: &str) -> (u64, String, String) {
        match read(text.as_bytes()) {
            Err(unread) => (unread.line.unwrap_or(0), unread.value, unread.why),
            _ => panic!("read: {text}"),
        }
    }

    const CORNERS: &str = "v 0 0 0\nv 1 0 0\nv 0 1 0\n";

    #[test]
    fn every_form_of_a_corner_is_read() {
        for face in ["f 1 2 3", "f 1/7 2/7 3/7", "f 1/7/9 2/7/9 3/7/9", "f 1//9 2//9 3//9", "f -3 -2 -1", "f 1 2 3 # note"] {
            assert_eq!(parsed(&format!("{CORNERS}{face}")).facets, [0, 1, 2], "{face}");
        }
    }

    #[test]
    fn a_negative_number_counts_back_from_where_it_stands() {
        let text = format!("{CORNERS}f -1 -2 -3\nv 5 5 5\nf -1 -2 -3\n");
        assert_eq!(parsed(&text).facets, [2, 1, 0, 3, 2, 1]);
    }

    #[test]
    fn other_lines_spaces_and_line_ends_are_passed_over() {
        let text = "# a\r\no b\r\n\r\n  v 1 2 3 0.5 0.5 0.5\r\nvn 0 0 1\r\nvt 0 0\r\ns off\r\nusemtl x\r\n";
        let mesh = parsed(text);
        assert_eq!((mesh.vertices, mesh.facets.len()), (vec![1., 2., 3.], 0));
        let mut latin = b"o caf\xe9\n".to_vec();
        latin.extend(CORNERS.as_bytes());
        assert!(read(&latin[..]).is_ok_and(|surface| surface.mesh.vertex_count() == 3));
    }

    /// Each of these would shift the numbers of all vertices behind it, if it were passed over.
    #[test]
    fn a_vertex_spelt_otherwise_is_not_passed_over() {
        assert_eq!(parsed(&format!("\u{feff}{CORNERS}")).vertex_count(), 3);
        for (line, value) in
            [("V 0 0 0", "\"V\""), ("v\u{a0}0 0 0", "\"v\\u{a0}0\""), ("\u{feff}v 0 0 0", "\"\\u{feff}v\""), ("v,0,0,0", "\"v,0,0,0\"")]
        {
            let (number, told, _) = refused(&format!("{CORNERS}{line}\n"));
            assert_eq!((number, told.as_str()), (4, value), "{line}");
        }
    }

    #[test]
    fn a_corner_that_names_no_vertex_is_left_to_the_library() {
        let text = format!("{CORNERS}f 0 1 4\nf -4 99999999999999999999999 1\n");
        assert_eq!(parsed(&text).facets, [NO_VERTEX, 0, 3, NO_VERTEX, NO_VERTEX, 0]);
        let surface = read(text.as_bytes());
        assert_eq!(surface.map(|s| s.no_vertex), Ok(Some((0, "\"0\"".into()))));
    }

    #[test]
    fn numbers_out_of_range_are_left_to_the_library() {
        let mesh = parsed("v nan inf -1e999\n");
        assert!(mesh.vertices[0].is_nan());
        assert_eq!(mesh.vertices[1..], [f64::INFINITY, f64::NEG_INFINITY]);
    }

    #[test]
    fn what_cannot_be_read_is_told_with_its_line_and_word() {
        assert_eq!(refused("v 0 0 0\nv 1 x 0\n"), (2, "\"x\"".into(), "\"x\" is not a number".into()));
        assert_eq!(refused("\n\nv 1 2\n").0, 3);
        for (line, told) in [
            ("f 1 2 3 1", "4 corners"),
            ("f 1 2", "2 corners"),
            ("f 1 2 x", "\"x\""),
            ("f 1 2 \\\n3", "goes on"),
            ("v 1,5 2 3", "\"1,5\" is not a number"),
            ("v 1 2 3 4 5 6 7 8 9", "more than 8 numbers"),
        ] {
            assert!(refused(&format!("{CORNERS}{line}\n")).2.contains(told), "{line}");
        }
    }

    #[test]
    fn long_lines_and_many_elements_are_bounded() {
        let long = format!("{CORNERS}# {}\n", "x".repeat(limits::LINE));
        assert_eq!(refused(&long).0, 4);
        let many = "v 0 0 0\n".repeat(limits::ELEMENTS + 1000);
        let surface = read(many.as_bytes()).unwrap_or_default();
        assert_eq!(surface.mesh.vertex_count(), limits::ELEMENTS);
        assert_eq!(surface.vertices, limits::ELEMENTS as u64 + 1000);
        let all = read_up_to(many.as_bytes(), usize::MAX).unwrap_or_default();
        assert_eq!((all.mesh.vertex_count() as u64, all.vertex_lines.len() as u64), (surface.vertices, surface.vertices));
    }

    #[test]
    fn what_is_written_reads_back_bit_for_bit() {
        let mesh =
            Mesh { vertices: vec![0.1, -0.0, 5e-324, 1e30, 1.0 / 3.0, -123456.789, 0.0, 2.5e-11, 3e7], facets: vec![0, 1, 2, 2, 1, 0] };
        let mut file = Vec::new();
        assert!(write(&mesh, &mut file).is_ok());
        let back = parsed(&String::from_utf8_lossy(&file));
        let bits = |list: &[f64]| list.iter().map(|x| x.to_bits()).collect::<Vec<_>>();
        assert_eq!(bits(&back.vertices), bits(&mesh.vertices));
        assert_eq!(back.facets, mesh.facets);
    }
}
