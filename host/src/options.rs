//! Options that subcommands share. A later one is added here, and its line to the texts in help/.

use crate::ceiling::{Ceiling, HANDHELD};
use crate::limits;
use crate::steps::{Closing, Request};
use crate::triangulator::{self, Triangulator};
use clap::{Args, ValueEnum};
use std::path::PathBuf;
use std::time::Duration;
use yongpham_library::Extents;

/// The box and what the mesh is cut and cleaned with.
#[derive(Args, Clone, Debug, Default)]
pub struct Shape {
    #[arg(long = "box", num_args = 6, allow_negative_numbers = true, value_names = ["X0", "Y0", "Z0", "X1", "Y1", "Z1"])]
    pub extents: Option<Vec<f64>>,
    #[arg(long, allow_negative_numbers = true)]
    pub eps: Option<f64>,
    #[arg(long, allow_negative_numbers = true)]
    pub resolution: Option<f64>,
}

impl Shape {
    pub fn extents(&self) -> Option<Extents> {
        self.extents.as_deref()?.try_into().ok()
    }
}

/// How large a mesh may be that is handed in.
#[derive(Args, Clone, Copy, Debug, Default)]
pub struct Size {
    #[arg(long, value_name = "N", allow_negative_numbers = true)]
    pub ceiling: Option<Ceiling>,
    #[arg(long)]
    pub handheld: bool,
}

impl Size {
    /// The ceiling named, else the office's.
    pub fn ceiling(&self) -> Result<Ceiling, String> {
        Ok(self.named()?.unwrap_or_default())
    }

    /// The ceiling named, if one is. Two that differ are wrong use: which of them was meant cannot be known.
    pub fn named(&self) -> Result<Option<Ceiling>, String> {
        match self.ceiling {
            Some(named) if self.handheld && named != HANDHELD => {
                let (handheld, named) = (HANDHELD.asked(), named.asked());
                Err(format!("--handheld is --ceiling {handheld}, and --ceiling {named} is given too; give one of them"))
            }
            None if self.handheld => Ok(Some(HANDHELD)),
            named => Ok(named),
        }
    }
}

/// Who triangulates, and for how long.
#[derive(Args, Clone, Debug)]
pub struct Triangulating {
    #[arg(long, value_name = "COMMAND", conflicts_with = "caps")]
    pub triangulate: Option<String>,
    #[arg(long, value_name = "FILE")]
    pub caps: Option<PathBuf>,
    #[arg(long, value_name = "SECONDS", default_value_t = limits::SECONDS as f64)]
    pub timeout: f64,
}

impl Triangulating {
    /// The longest time that can be asked for: thirty days.
    const LONGEST: f64 = 30.0 * 86_400.0;

    pub fn time(&self) -> Result<Duration, String> {
        if self.timeout > 0.0 && self.timeout <= Self::LONGEST {
            Ok(Duration::from_secs_f64(self.timeout))
        } else {
            Err(format!("--timeout: {:?} is no time above 0 and up to {} seconds", self.timeout, Self::LONGEST))
        }
    }

    /// The one named, else the built-in one.
    pub fn triangulator(&self) -> Option<Triangulator> {
        let named = self.triangulate.clone().map(Triangulator::Line);
        let file = self.caps.clone().map(Triangulator::File);
        named.or(file).or_else(|| triangulator::find().map(Triangulator::BuiltIn))
    }
}

/// Which solids are made.
#[derive(Clone, Copy, Debug, PartialEq, ValueEnum)]
pub enum Mode {
    Positive,
    Negative,
    Both,
}

impl Mode {
    pub fn closings(self) -> Vec<Closing> {
        match self {
            Mode::Positive => vec![Closing::Positive],
            Mode::Negative => vec![Closing::Negative],
            Mode::Both => vec![Closing::Positive, Closing::Negative],
        }
    }
}

/// What is written, and where.
#[derive(Args, Clone, Debug)]
pub struct Writing {
    #[arg(long, value_name = "FOLDER", default_value = ".")]
    pub out: PathBuf,
    #[arg(long)]
    pub save_faces: bool,
    #[arg(long)]
    pub save_caps: bool,
    #[arg(long, value_name = "FILE")]
    pub picture: Option<PathBuf>,
    #[arg(long)]
    pub steps: bool,
}

/// What is asked of every mesh; box and resolution are its own.
#[derive(Clone, Debug)]
pub struct Common {
    pub eps: Option<f64>,
    pub ceiling: Ceiling,
    pub closings: Vec<Closing>,
    pub triangulator: Triangulator,
    pub time: Duration,
}

impl Common {
    pub fn request(&self, extents: Extents, resolution: Option<f64>) -> Request {
        Request {
            extents,
            eps: self.eps,
            resolution,
            ceiling: self.ceiling,
            closings: self.closings.clone(),
            triangulator: self.triangulator.clone(),
            time: self.time,
        }
    }
}
