//! What a file looks like that is no OBJ file.

/// Bytes of a binary STL file in front of its facets, and of a facet.
const STL_HEAD: u64 = 84;
const STL_FACET: u64 = 50;

/// A sentence that names the kind; nothing if the start may be that of an OBJ file.
pub fn other_than_obj(start: &[u8], length: u64) -> Option<String> {
    let looks = |kind: &str| Some(format!("it looks like {kind}"));
    if length == 0 {
        return Some("the file is empty".into());
    }
    if let Some(facets) = binary_stl(start, length) {
        return looks(&format!("a binary STL file of {facets} facets"));
    }
    if let Some((_, kind)) = SIGNATURES.iter().find(|(sign, _)| start.starts_with(sign)) {
        return looks(kind);
    }
    if start.contains(&0) {
        let pairs = start.iter().skip(1).step_by(2).filter(|byte| **byte == 0).count();
        let wide = pairs * 3 > start.len();
        return looks(if wide { "text in UTF-16; save it as UTF-8" } else { "a binary file" });
    }
    let text = String::from_utf8_lossy(start);
    let text = text.trim_start_matches(['\u{feff}', ' ', '\t', '\r', '\n']);
    let lower = text.get(..text.len().min(200)).unwrap_or(text).to_ascii_lowercase();
    let first = lower.split_ascii_whitespace().next().unwrap_or("");
    match first {
        "solid" if lower.contains("facet") || !lower.contains("\nv ") => looks("a text STL file"),
        "off" | "coff" | "noff" | "stoff" => looks("an OFF file"),
        "ply" => looks("a PLY file"),
        "iso-10303-21;" => looks("a STEP file"),
        "0" | "999" if lower.contains("section") => looks("a DXF file"),
        _ if first.starts_with('<') => looks("an XML or HTML file"),
        _ if first.starts_with('{') => looks("a JSON file"),
        _ if noise(start) => looks("a binary file"),
        _ => None,
    }
}

/// First bytes that give a kind away.
const SIGNATURES: [(&[u8], &str); 9] = [
    (b"\xff\xfe", "text in UTF-16; save it as UTF-8"),
    (b"\xfe\xff", "text in UTF-16; save it as UTF-8"),
    (b"PK\x03\x04", "a ZIP archive"),
    (b"\x1f\x8b", "a compressed (gzip) file"),
    (b"\x89PNG", "a PNG picture"),
    (b"%PDF", "a PDF document"),
    (b"glTF", "a glTF file"),
    (b"\x7fELF", "a program"),
    (b"Kaydara FBX", "an FBX file"),
];

/// Its length says whether a file is one: 84 bytes, of which the last four count the facets, and 50 a facet.
fn binary_stl(start: &[u8], length: u64) -> Option<u32> {
    let count: [u8; 4] = start.get(80..84)?.try_into().ok()?;
    let facets = u32::from_le_bytes(count);
    (length == STL_HEAD + STL_FACET * u64::from(facets)).then_some(facets)
}

/// Control characters that no text has.
fn noise(start: &[u8]) -> bool {
    start.iter().any(|byte| *byte < 9 || (14..32).contains(byte) && *byte != 27)
}

#[cfg(test)]
mod tests {
    use super::*;

    fn told(start: &[u8]) -> String {
        other_than_obj(start, start.len() as u64).unwrap_or_default()
    }

    #[test]
    fn kinds_are_named() {
        let mut binary = vec![b' '; 84 + 50];
        binary[80..84].copy_from_slice(&1u32.to_le_bytes());
        assert!(told(&binary).ends_with("a binary STL file of 1 facets"));
        let wide: Vec<u8> = "v 0 0 0\n".encode_utf16().flat_map(u16::to_le_bytes).collect();
        for (start, kind) in [
            (&b""[..], "empty"),
            (b"solid pit\nfacet normal 0 0 1\n", "text STL"),
            (b"OFF\n3 1 0\n", "OFF"),
            (b"ply\nformat ascii 1.0\n", "PLY"),
            (b"\xff\xfev\x00 \x00", "UTF-16"),
            (&wide, "UTF-16"),
            (b"\x8a\x01\x02\x9c\xfe\x00\x00\x17", "binary"),
            (b"<?xml version=\"1.0\"?>", "XML"),
            (b"  0\nSECTION\n  2\nHEADER\n", "DXF"),
        ] {
            assert!(told(start).contains(kind), "{kind}: {}", told(start));
        }
    }

    #[test]
    fn meshes_and_plain_text_are_left_to_the_reader() {
        for start in ["# a\nv 0 0 0\n", "\u{feff}v 0 0 0\n", "o caf\u{e9}\n", "mtllib a.mtl\n", "hello\n"] {
            assert_eq!(told(start.as_bytes()), "", "{start}");
        }
    }
}
