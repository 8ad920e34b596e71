//! A mesh through the library, step by step, up to the verdict.

use crate::ceiling::Ceiling;
use crate::edges;
use crate::explain::Call;
use crate::faces::{self, Answer};
use crate::library::{Extents, Library, Lists, Setting, Stop};
use crate::mesh::Mesh;
use crate::meshes::Surface;
use crate::outcome::{Outcome, State, Trouble, Volumes};
use crate::text;
use crate::triangulator::Triangulator;
use crate::verdict::{self, Fault, Verdict};
use crate::volume::{self, Volume};
use std::time::Duration;

/// The two ways to close; the discriminant is the library's mode.
#[derive(Clone, Copy, Debug, PartialEq)]
pub enum Closing {
    Positive = 1,
    Negative = 2,
}

impl Closing {
    pub fn name(self) -> &'static str {
        match self {
            Closing::Positive => "positive",
            Closing::Negative => "negative",
        }
    }
}

/// What is asked for.
#[derive(Clone, Debug, PartialEq)]
pub struct Request {
    pub extents: Extents,
    /// Without one: the tolerance of the box.
    pub eps: Option<f64>,
    /// Without one: a segment a side.
    pub resolution: Option<f64>,
    pub ceiling: Ceiling,
    pub closings: Vec<Closing>,
    pub triangulator: Triangulator,
    pub time: Duration,
}

/// A solid, with how it was judged.
#[derive(Clone, Debug, PartialEq)]
pub struct Solid {
    pub closing: Closing,
    pub mesh: Mesh,
    /// Facets of the surface; those behind them are caps.
    pub surface_facets: usize,
    pub verdict: Verdict,
}

/// What was made on the way, as far as it came.
#[derive(Debug, Default)]
pub struct Made {
    /// What each step gave, in words.
    pub told: Vec<(&'static str, String)>,
    pub cleaned: Option<Mesh>,
    /// Open edges of the last mesh made before caps, if they could be counted.
    pub open_edges: Option<usize>,
    pub solids: Vec<Solid>,
    /// What the triangulator was handed and what it answered.
    pub faces: String,
    pub triangles: Vec<u8>,
}

/// The resolution that puts one segment on each side of the box.
pub fn one_segment(extents: &Extents) -> f64 {
    let longest = (0..3).map(|axis| extents[axis + 3] - extents[axis]).fold(0.0, f64::max);
    // The library admits no larger one.
    longest.min((1u64 << 30) as f64)
}

/// Refusals that box, eps and resolution alone give rise to.
pub fn check(request: &Request) -> Result<(), Outcome> {
    let mut work = Work::new(request);
    let setting = work.setting()?;
    let nothing = Mesh::default();
    let call = Call { step: "box", surface: None, mesh: &nothing, setting: &setting, lists: None, answer: None };
    work.library.accepts(&setting).map_err(|stop| call.outcome(stop))
}

/// Cuts, cleans, asks for triangles, closes and judges.
pub fn close(surface: &Surface, request: &Request) -> (Made, Outcome) {
    let mut work = Work::new(request);
    let outcome = work.all(surface).map_or_else(|outcome| outcome, Outcome::Closed);
    (work.made, outcome)
}

/// Cuts and cleans, and makes what a triangulator would be handed.
pub fn cut(surface: &Surface, request: &Request) -> (Made, Result<(), Outcome>) {
    let mut work = Work::new(request);
    let done = work.cleaned(surface).and_then(|(mesh, setting)| {
        let lists = work.candidates(&mesh, &setting);
        work.made.cleaned = Some(mesh);
        lists.map(|_| ())
    });
    (work.made, done)
}

/// Solids that are over the ceiling, and what can be done. The library tests only what it is handed, and caps are added behind that.
pub fn over_ceiling(solids: &[Solid], request: &Request) -> Option<String> {
    let counts = |solid: &Solid| [solid.mesh.vertex_count() as u64, solid.mesh.facet_count() as u64];
    let over = |solid: &Solid| {
        let [vertices, facets] = counts(solid);
        let over = request.ceiling.exceeded_by(vertices, facets)?;
        Some(format!("the {} solid has {over}", solid.closing.name()))
    };
    let told: Vec<String> = solids.iter().filter_map(over).collect();
    let most = |list: usize| solids.iter().map(|solid| counts(solid)[list]).max().unwrap_or(0);
    let office = request.ceiling.in_the_office(most(0), most(1));
    let grid = request.resolution.map_or("", |_| ", a coarser resolution");
    (!told.is_empty()).then(|| {
        format!(
            "over the ceiling ({}): {}; written all the same, since the ceiling is for what is handed in; {office}; \
             a coarser surface{grid} or a smaller box gives fewer",
            request.ceiling.in_words(),
            told.join(", "),
        )
    })
}

struct Work<'a> {
    library: Library,
    request: &'a Request,
    made: Made,
}

impl<'a> Work<'a> {
    fn new(request: &'a Request) -> Self {
        Work { library: Library::default(), request, made: Made::default() }
    }

    fn all(&mut self, surface: &Surface) -> Result<Volumes, Outcome> {
        let (mesh, setting) = self.cleaned(surface)?;
        self.made.cleaned = Some(mesh.clone());
        let lists = self.candidates(&mesh, &setting)?;
        let answer = self.triangles(&lists)?;
        for &closing in &self.request.closings {
            if lists.is_empty() && closing == Closing::Negative {
                self.already_closed()?;
                continue;
            }
            let solid = self.closed(&mesh, &answer, &lists, &setting, closing)?;
            self.made.solids.push(solid);
        }
        self.judged(&lists)
    }

    fn tell(&mut self, step: &'static str, outcome: String) {
        self.made.told.push((step, outcome));
    }

    fn setting(&mut self) -> Result<Setting, Outcome> {
        let extents = self.request.extents;
        let mut setting = Setting {
            extents,
            eps: self.request.eps.unwrap_or(0.0),
            resolution: self.request.resolution.unwrap_or_else(|| one_segment(&extents)),
            ceiling: self.request.ceiling,
        };
        let nothing = Mesh::default();
        let call = Call { step: "box", surface: None, mesh: &nothing, setting: &setting, lists: None, answer: None };
        let tolerance = self.library.tolerance(&extents).map_err(|stop| call.outcome(stop))?;
        setting.eps = self.request.eps.unwrap_or(tolerance);
        let given = if self.request.eps.is_some() { "as given" } else { "the tolerance of the box" };
        self.tell("eps", format!("{:?}, {given}", setting.eps));
        self.tell("ceiling", setting.ceiling.in_words());
        Ok(setting)
    }

    fn cleaned(&mut self, surface: &Surface) -> Result<(Mesh, Setting), Outcome> {
        self.tell("read", format!("{} vertices, {} facets", surface.vertices, surface.facets));
        let setting = self.setting()?;
        let cut = self.library.clip(&surface.mesh, &setting);
        let cut = self.mesh("cut", cut, &surface.mesh, Some(surface), &setting)?;
        if cut.facets.is_empty() {
            let why = "no part of the surface lies in the box";
            return Err(Outcome::Not(State::Empty, Trouble::at("cut", why)));
        }
        let cleaned = self.library.clean(&cut, &setting);
        let mesh = self.mesh("cleaned", cleaned, &cut, None, &setting)?;
        if mesh.facets.is_empty() {
            let why = "nothing is left in the box once flat, double and single facets are dropped";
            return Err(Outcome::Not(State::Empty, Trouble::at("cleaned", why)));
        }
        Ok((mesh, setting))
    }

    /// A step that makes a mesh.
    fn mesh(
        &mut self,
        step: &'static str,
        made: Result<Mesh, Stop>,
        from: &Mesh,
        surface: Option<&Surface>,
        setting: &Setting,
    ) -> Result<Mesh, Outcome> {
        let call = Call { step, surface, mesh: from, setting, lists: None, answer: None };
        let mesh = made.map_err(|stop| call.outcome(stop))?;
        self.made.open_edges = edges::list(&mut self.library, mesh.vertex_count(), &mesh.facets).ok().map(|edges| edges.open.len());
        self.tell(step, counts(&mesh, self.made.open_edges));
        Ok(mesh)
    }

    fn candidates(&mut self, mesh: &Mesh, setting: &Setting) -> Result<Lists, Outcome> {
        let call = Call { step: "candidates", surface: None, mesh, setting, lists: None, answer: None };
        let lists = self.library.candidates(mesh, setting).map_err(|stop| call.outcome(stop))?;
        self.made.faces = faces::text(&lists);
        let outcome = if lists.is_empty() {
            "none: there is no open edge to close".into()
        } else {
            let (constraints, open) = (lists.constraints.len() / 3, lists.open_edges.len() / 3);
            format!("{} points, {constraints} constraints, {open} open edges on faces", lists.candidate_count())
        };
        self.tell("candidates", outcome);
        Ok(lists)
    }

    /// The triangulator's answer. Where there is nothing to close nobody is asked.
    fn triangles(&mut self, lists: &Lists) -> Result<Answer, Outcome> {
        if lists.is_empty() {
            return Ok(Answer::default());
        }
        let failed = |trouble: Trouble| Outcome::Not(State::Failed, self.with_cause(trouble, lists));
        let asked = self.request.triangulator.answer(&self.made.faces, self.request.time);
        let bytes = asked.map_err(|why| failed(Trouble::at("triangles", why)))?;
        let answer = faces::answer(&bytes, lists).map_err(|fault| {
            failed(Trouble {
                line: Some(fault.line),
                explanation: format!("of the triangulator's answer: {} {}", fault.value, fault.why),
                value: fault.value,
                ..Trouble::at("triangles", "")
            })
        })?;
        self.made.triangles = bytes;
        self.tell("triangles", format!("{} supplied", answer.lines.len()));
        Ok(answer)
    }

    fn closed(&mut self, mesh: &Mesh, answer: &Answer, lists: &Lists, setting: &Setting, closing: Closing) -> Result<Solid, Outcome> {
        let step = closing.name();
        let call = Call { step, surface: None, mesh, setting, lists: Some(lists), answer: Some(answer) };
        let closed = self.library.caps(mesh, &answer.list, setting, closing as u32);
        let closed = closed.map_err(|stop| match call.outcome(stop) {
            Outcome::Not(State::Refused, trouble) => Outcome::Not(State::Refused, self.with_cause(trouble, lists)),
            other => other,
        })?;
        let verdict = verdict::verdict(&mut self.library, &closed, &setting.extents);
        let told = match &verdict {
            Verdict::Closed(volume) => format!("closed, volume {}", volume.value),
            Verdict::Open(fault) => format!("open: {}", fault.what),
            Verdict::TurnedWrong(fault) => format!("turned wrong: {}", fault.what),
            Verdict::Empty => "empty".into(),
            Verdict::NotChecked(why) => format!("not checked: {why}"),
        };
        self.tell(step, format!("{} vertices, {} facets, {told}", closed.vertex_count(), closed.facet_count()));
        Ok(Solid { closing, mesh: closed, surface_facets: mesh.facet_count(), verdict })
    }

    /// A mesh without open edges is its own positive solid. The library gives it back as it is in either mode, which is no other solid.
    fn already_closed(&mut self) -> Result<(), Outcome> {
        let why = "the surface is closed already, so there is nothing to close it to the other way";
        self.tell("negative", format!("not made: {why}"));
        if self.request.closings == [Closing::Negative] {
            return Err(Outcome::failed("negative", why));
        }
        Ok(())
    }

    /// Every solid must be closed, and two of them must fill the box.
    fn judged(&mut self, lists: &Lists) -> Result<Volumes, Outcome> {
        let mut volumes = Volumes::default();
        let mut sum = Volume { value: 0.0, bound: 0.0 };
        for solid in &self.made.solids {
            let volume = match &solid.verdict {
                Verdict::Closed(volume) => volume,
                Verdict::Open(fault) => return Err(self.not(State::Open, solid, fault, lists)),
                Verdict::TurnedWrong(fault) => return Err(self.not(State::TurnedWrong, solid, fault, lists)),
                Verdict::Empty => {
                    let why = "the solid has no facet";
                    return Err(Outcome::Not(State::Empty, Trouble::at(solid.closing.name(), why)));
                }
                Verdict::NotChecked(why) => {
                    let (name, what) = (solid.closing.name(), "whether it is closed was not checked");
                    return Err(Outcome::failed(name, format!("of the {name} solid {what}: {why}")));
                }
            };
            sum = Volume { value: sum.value + volume.value, bound: sum.bound + volume.bound };
            match solid.closing {
                Closing::Positive => volumes.positive = Some(volume.value),
                Closing::Negative => volumes.negative = Some(volume.value),
            }
        }
        if self.made.solids.len() == 2 {
            self.together(sum)?;
        }
        Ok(volumes)
    }

    fn not(&self, state: State, solid: &Solid, fault: &Fault, lists: &Lists) -> Outcome {
        let trouble = Trouble {
            value: fault.count.to_string(),
            place: fault.place(),
            explanation: format!("of the {} solid {}", solid.closing.name(), fault.what),
            ..Trouble::at(solid.closing.name(), "")
        };
        Outcome::Not(state, self.with_cause(trouble, lists))
    }

    /// Caps that fill the faces give two solids that fill the box.
    fn together(&mut self, sum: Volume) -> Result<(), Outcome> {
        let whole = volume::of_box(&self.request.extents);
        let slack = sum.bound + volume::slack(&self.request.extents);
        self.tell("together", format!("volume {}; the box's is {whole}", sum.value));
        if (sum.value - whole).abs() <= slack {
            return Ok(());
        }
        let why = format!("the two solids have volume {} together and the box has {whole}: the triangles do not fill its faces", sum.value);
        Err(Outcome::failed("together", why))
    }

    /// The one cause that the resolution given has a part in.
    fn with_cause(&self, trouble: Trouble, lists: &Lists) -> Trouble {
        let divided = self.request.resolution.and_then(|_| lists.divided_edge());
        let Some([a, b, p]) = divided.map(|points| points.map(text::point)) else {
            return trouble;
        };
        let cause = format!(
            "the cause is --resolution: the surface runs along a side of the box from {a} to {b}, and the grid has its point {p} \
             inside that edge; without --resolution there is none"
        );
        Trouble { explanation: format!("{}; {cause}", trouble.explanation), ..trouble }
    }
}

pub fn counts(mesh: &Mesh, open_edges: Option<usize>) -> String {
    let (vertices, facets) = (mesh.vertex_count(), mesh.facet_count());
    let open = open_edges.map_or("open edges not counted".into(), |count| format!("{count} open edges"));
    format!("{vertices} vertices, {facets} facets, {open}")
}
