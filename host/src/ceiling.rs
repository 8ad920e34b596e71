//! The caller's ceiling: how many vertices, and how many facets, a mesh that is handed in may have. The library tests it, at every step
//! that a mesh is handed to; here it is only told, and results are measured by it.

use std::str::FromStr;

/// A ceiling as it was asked for. The library is handed it so, and itself counts a higher one as the office's.
#[derive(Clone, Copy, Debug, PartialEq)]
pub struct Ceiling(u64);

/// The office's, which is the highest there is.
pub const OFFICE: Ceiling = Ceiling(65_536);

/// That of the foremen's handheld.
pub const HANDHELD: Ceiling = Ceiling(4_096);

impl Default for Ceiling {
    fn default() -> Self {
        OFFICE
    }
}

impl FromStr for Ceiling {
    type Err = String;

    /// Digits alone: a sign, a comma or an exponent is more likely a slip than a ceiling.
    fn from_str(word: &str) -> Result<Self, String> {
        let digits = !word.is_empty() && word.bytes().all(|byte| byte.is_ascii_digit());
        let number = digits.then(|| word.parse().ok()).flatten();
        number.map(Ceiling).ok_or_else(|| format!("a ceiling is a whole number from 0 to {}, in digits alone", u64::MAX))
    }
}

impl Ceiling {
    pub fn asked(self) -> u64 {
        self.0
    }

    /// What it counts as.
    pub fn in_force(self) -> u64 {
        self.0.min(OFFICE.0)
    }

    /// The number, and whose it is.
    pub fn in_words(self) -> String {
        let whose = match Ceiling(self.in_force()) {
            OFFICE => ", the office's",
            HANDHELD => ", the handheld's",
            _ => "",
        };
        format!("{}{whose}", self.in_force())
    }

    /// The counts that are over it: "5000 vertices", "9000 facets", or both. Nothing if it admits a mesh of these counts.
    pub fn exceeded_by(self, vertices: u64, facets: u64) -> Option<String> {
        let over = |count: u64, one: &str, many: &str| {
            let what = if count == 1 { one } else { many };
            (count > self.in_force()).then(|| format!("{count} {what}"))
        };
        let over: Vec<String> = [over(vertices, "vertex", "vertices"), over(facets, "facet", "facets")].into_iter().flatten().collect();
        (!over.is_empty()).then(|| over.join(" and "))
    }

    /// Whether the office helps with a mesh of these counts, which are over this ceiling.
    pub fn in_the_office(self, vertices: u64, facets: u64) -> String {
        let most = OFFICE.0;
        if self.in_force() == most {
            "no ceiling is higher".into()
        } else if OFFICE.exceeded_by(vertices, facets).is_none() {
            format!("the office, without --handheld or --ceiling, takes up to {most}")
        } else {
            format!("that is too many for the office too, which takes up to {most}")
        }
    }
}

#[cfg(test)]
mod tests {
    use super::*;

    #[test]
    fn a_ceiling_is_told_in_digits() {
        let asked = |word: &str| word.parse::<Ceiling>().map(Ceiling::asked);
        assert_eq!(asked("0"), Ok(0));
        assert_eq!(asked("4096"), Ok(4096));
        assert_eq!(asked("0065536"), Ok(65_536));
        assert_eq!(asked("18446744073709551615"), Ok(u64::MAX));
        for wrong in ["", "-1", "+1", "4,096", "4096.0", "4e3", "0x10", " 7", "7 ", "many", "18446744073709551616", "٣"] {
            assert!(asked(wrong).is_err_and(|why| why.contains("from 0 to 18446744073709551615")), "{wrong:?}");
        }
    }

    #[test]
    fn a_higher_one_counts_as_the_offices() {
        for asked in [65_536, 65_537, u64::MAX] {
            let ceiling = Ceiling(asked);
            assert_eq!((ceiling.in_force(), ceiling.asked(), ceiling.in_words().as_str()), (65_536, asked, "65536, the office's"));
            assert_eq!(ceiling.exceeded_by(65_536, 65_536), None);
            assert_eq!(ceiling.exceeded_by(65_536, 65_537).as_deref(), Some("65537 facets"));
            assert_eq!(ceiling.in_the_office(65_537, 1), "no ceiling is higher");
        }
        assert_eq!(Ceiling::default(), OFFICE);
    }

    #[test]
    fn a_lower_one_admits_up_to_itself() {
        assert_eq!(HANDHELD.in_words(), "4096, the handheld's");
        assert_eq!(Ceiling(65_535).in_words(), "65535");
        assert_eq!(HANDHELD.exceeded_by(4096, 4096), None);
        assert_eq!(HANDHELD.exceeded_by(4097, 0).as_deref(), Some("4097 vertices"));
        assert_eq!(HANDHELD.exceeded_by(5000, 9000).as_deref(), Some("5000 vertices and 9000 facets"));
        assert_eq!(Ceiling(0).exceeded_by(0, 0), None);
        assert_eq!(Ceiling(0).exceeded_by(0, 1).as_deref(), Some("1 facet"));
    }

    #[test]
    fn the_office_is_named_only_where_it_helps() {
        assert!(HANDHELD.in_the_office(4097, 65_536).starts_with("the office, "));
        assert!(HANDHELD.in_the_office(4097, 65_537).starts_with("that is too many for the office too"));
        assert!(Ceiling(65_535).in_the_office(65_536, 1).starts_with("the office, "));
    }
}
