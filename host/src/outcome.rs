//! What became of a mesh: exactly one of closed, open, turned wrong, empty, refused and failed.

use crate::refusals;

/// Only a closed one carries volumes.
#[derive(Clone, Debug, PartialEq)]
pub enum Outcome {
    Closed(Volumes),
    Not(State, Trouble),
}

/// The volumes of the solids that were asked for.
#[derive(Clone, Copy, Debug, Default, PartialEq)]
pub struct Volumes {
    pub positive: Option<f64>,
    pub negative: Option<f64>,
}

#[derive(Clone, Copy, Debug, PartialEq)]
pub enum State {
    Open,
    TurnedWrong,
    Empty,
    /// Turned down by the library.
    Refused,
    /// A step of the command did not come to its end.
    Failed,
}

/// What there is to say of a mesh that is not closed.
#[derive(Clone, Debug, Default, PartialEq)]
pub struct Trouble {
    pub step: &'static str,
    /// The refusal's number.
    pub number: Option<u32>,
    /// The line of the mesh, of the list or of the triangulator's answer.
    pub line: Option<u64>,
    /// The value at fault.
    pub value: String,
    /// Points.
    pub place: String,
    pub explanation: String,
}

impl State {
    pub fn name(self) -> &'static str {
        match self {
            State::Open => "open",
            State::TurnedWrong => "turned wrong",
            State::Empty => "empty",
            State::Refused => "refused",
            State::Failed => "failed",
        }
    }
}

impl Outcome {
    pub fn failed(step: &'static str, explanation: impl Into<String>) -> Self {
        Outcome::Not(State::Failed, Trouble::at(step, explanation))
    }

    pub fn state(&self) -> &'static str {
        match self {
            Outcome::Closed(_) => "closed",
            Outcome::Not(state, _) => state.name(),
        }
    }

    pub fn is_closed(&self) -> bool {
        matches!(self, Outcome::Closed(_))
    }

    /// One line.
    pub fn in_words(&self, density: Option<f64>) -> String {
        match self {
            Outcome::Closed(volumes) => format!("closed: {}", volumes.in_words(density)),
            Outcome::Not(state, trouble) => format!("{}: {}", state.name(), trouble.in_words()),
        }
    }
}

impl Volumes {
    fn in_words(&self, density: Option<f64>) -> String {
        let told = |name: &str, volume: Option<f64>| {
            let tonnes = density.zip(volume).map(|(d, v)| format!(", {} tonnes", d * v));
            volume.map(|v| format!("{name} volume {v}{}", tonnes.unwrap_or_default()))
        };
        let both = [told("positive", self.positive), told("negative", self.negative)];
        both.into_iter().flatten().collect::<Vec<_>>().join("; ")
    }
}

impl Trouble {
    pub fn at(step: &'static str, explanation: impl Into<String>) -> Self {
        Trouble { step, explanation: explanation.into(), ..Trouble::default() }
    }

    fn in_words(&self) -> String {
        let number = self.number.map(refusals::name).unwrap_or_default();
        let line = self.line.map(|line| format!(", line {line}")).unwrap_or_default();
        let place = if self.place.is_empty() { String::new() } else { format!(": {}", self.place) };
        format!("{number}step {}{line}: {}{place}", self.step, self.explanation)
    }
}
