//! The report: a line a mesh on standard output, and the summary, which is the same for one mesh or many.

use crate::outcome::Outcome;
use std::io::{self, Write};

/// What the summary tells, in this order.
pub const COLUMNS: [&str; 16] = [
    "row",
    "name",
    "file",
    "state",
    "positive_volume",
    "negative_volume",
    "density",
    "positive_tonnes",
    "negative_tonnes",
    "step",
    "number",
    "line",
    "value",
    "where",
    "explanation",
    "moved_aside",
];

/// A mesh, what became of it, and what it did to the folder.
#[derive(Clone, Debug)]
pub struct Row {
    pub number: usize,
    pub name: String,
    pub file: String,
    pub density: Option<f64>,
    pub outcome: Outcome,
    /// Results of an earlier run that were moved out of the way.
    pub moved_aside: Vec<String>,
    /// What each step gave, if that was asked for.
    pub steps: Vec<String>,
    /// What is to be known of results that were made.
    pub warning: Option<String>,
}

impl Row {
    /// The row of the summary.
    pub fn cells(&self) -> [String; 16] {
        let (mut volumes, mut trouble) = (Default::default(), Default::default());
        match &self.outcome {
            Outcome::Closed(found) => volumes = *found,
            Outcome::Not(_, found) => trouble = found.clone(),
        }
        let number = |x: Option<f64>| x.map(|x| x.to_string()).unwrap_or_default();
        let tonnes = |volume: Option<f64>| number(self.density.zip(volume).map(|(d, v)| d * v));
        let count = |x: Option<u64>| x.map(|x| x.to_string()).unwrap_or_default();
        [
            self.number.to_string(),
            self.name.clone(),
            self.file.clone(),
            self.outcome.state().into(),
            number(volumes.positive),
            number(volumes.negative),
            number(self.density),
            tonnes(volumes.positive),
            tonnes(volumes.negative),
            trouble.step.into(),
            count(trouble.number.map(u64::from)),
            count(trouble.line),
            trouble.value,
            trouble.place,
            trouble.explanation,
            self.moved_aside.join(" "),
        ]
    }

    /// The line on standard output, with the steps in front if they were asked for, and a line behind it if there is a warning.
    fn line(&self) -> String {
        let steps: String = self.steps.iter().map(|step| format!("{step}\n")).collect();
        let moved = match self.moved_aside.as_slice() {
            [] => String::new(),
            files => format!("; moved aside: {}", files.join(" ")),
        };
        let warning = self.warning.as_ref().map(|words| format!("\n{}: warning: {words}", self.file)).unwrap_or_default();
        format!("{steps}{}: {}{moved}{warning}", self.file, self.outcome.in_words(self.density))
    }
}

/// Writes rows to the summary and to standard output. That one of them is lost is no reason to stop the work, but it is told.
pub struct Report<W: Write> {
    summary: csv::Writer<W>,
    /// Why the summary, or standard output, is not whole.
    summary_lost: Option<String>,
    output_lost: Option<String>,
    closed: usize,
    warned: usize,
    rows: usize,
}

impl<W: Write> Report<W> {
    pub fn new(summary: W) -> Self {
        let summary = csv::Writer::from_writer(summary);
        let mut report = Report { summary, summary_lost: None, output_lost: None, closed: 0, warned: 0, rows: 0 };
        report.write(&COLUMNS);
        report
    }

    fn write<C: AsRef<[u8]>>(&mut self, cells: &[C]) {
        let written = self.summary.write_record(cells).map_err(io::Error::from);
        if let Err(why) = written.and_then(|()| self.summary.flush()) {
            self.summary_lost.get_or_insert(format!("the summary cannot be written: {why}"));
        }
    }

    pub fn put(&mut self, row: &Row) {
        self.rows += 1;
        self.closed += usize::from(row.outcome.is_closed());
        self.warned += usize::from(row.warning.is_some());
        self.write(&row.cells());
        self.say(&row.line());
    }

    /// A line on standard output.
    pub fn say(&mut self, line: &str) {
        let mut out = io::stdout().lock();
        if let Err(why) = writeln!(out, "{line}").and_then(|()| out.flush()) {
            self.output_lost.get_or_insert(format!("standard output cannot be written: {why}"));
        }
    }

    /// How many of how many rows were closed, and how many have a warning.
    pub fn counts(&self) -> String {
        let warned = if self.warned == 0 { String::new() } else { format!(", {} with a warning", self.warned) };
        format!("{} of {} closed{warned}", self.closed, self.rows)
    }

    pub fn all_closed(&self) -> bool {
        self.closed == self.rows
    }

    /// A summary that is not whole would be believed.
    pub fn summary_lost(&self) -> Option<&str> {
        self.summary_lost.as_deref()
    }

    pub fn output_lost(&self) -> Option<&str> {
        self.output_lost.as_deref()
    }
}

#[cfg(test)]
mod tests {
    use super::*;
    use crate::outcome::{State, Trouble, Volumes};

    fn row(outcome: Outcome) -> Row {
        let (name, file) = ("pit".into(), "in/pit.obj".into());
        Row { number: 3, name, file, density: Some(2.5), outcome, moved_aside: vec![], steps: vec![], warning: None }
    }

    #[test]
    fn only_a_closed_row_has_volumes_and_tonnes() {
        let closed = row(Outcome::Closed(Volumes { positive: Some(4.0), negative: None }));
        assert_eq!(closed.cells().join(","), "3,pit,in/pit.obj,closed,4,,2.5,10,,,,,,,,");
        assert_eq!(closed.line(), "in/pit.obj: closed: positive volume 4, 10 tonnes");
        let trouble = Trouble { number: Some(3), line: Some(7), value: "9".into(), ..Trouble::at("cut", "why") };
        let refused = row(Outcome::Not(State::Refused, trouble));
        assert_eq!(refused.cells().join(","), "3,pit,in/pit.obj,refused,,,2.5,,,cut,3,7,9,,why,");
        assert_eq!(refused.line(), "in/pit.obj: refused: 3 BadIndex, step cut, line 7: why");
    }

    /// The summary does not tell it.
    #[test]
    fn a_warning_stands_in_a_line_behind_its_row() {
        let closed = row(Outcome::Closed(Volumes { positive: Some(4.0), negative: None }));
        let warned = Row { warning: Some("large".into()), moved_aside: vec!["pit.caps".into()], ..closed.clone() };
        let line = "in/pit.obj: closed: positive volume 4, 10 tonnes; moved aside: pit.caps\nin/pit.obj: warning: large";
        assert_eq!(warned.line(), line);
        assert_eq!(warned.cells()[..15], closed.cells()[..15]);
    }

    struct Full;

    impl Write for Full {
        fn write(&mut self, _: &[u8]) -> io::Result<usize> {
            Err(io::Error::other("no room"))
        }

        fn flush(&mut self) -> io::Result<()> {
            Ok(())
        }
    }

    #[test]
    fn a_lost_summary_is_told() {
        let report = Report::new(Full);
        assert!(report.summary_lost().is_some_and(|why| why.contains("no room")));
    }
}
