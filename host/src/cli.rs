//! The command line. The help texts stand in help/, so that ./run can show them before anything is built.

use crate::commands::{check, close, cut, join, sample, Answer};
use clap::{Parser, Subcommand};

#[derive(Parser, Debug)]
#[command(name = "yongpham", version, disable_help_subcommand = true, override_help = include_str!("../help/yongpham.txt"))]
pub struct Cli {
    #[command(subcommand)]
    command: Command,
}

#[derive(Subcommand, Debug)]
enum Command {
    #[command(override_help = include_str!("../help/close.txt"))]
    Close(close::Arguments),
    #[command(override_help = include_str!("../help/check.txt"))]
    Check(check::Arguments),
    #[command(override_help = include_str!("../help/cut.txt"))]
    Cut(cut::Arguments),
    #[command(override_help = include_str!("../help/join.txt"))]
    Join(join::Arguments),
    #[command(override_help = include_str!("../help/sample.txt"))]
    Sample(sample::Arguments),
}

impl Cli {
    pub fn run(self) -> Answer {
        match self.command {
            Command::Close(arguments) => close::run(&arguments),
            Command::Check(arguments) => check::run(&arguments),
            Command::Cut(arguments) => cut::run(&arguments),
            Command::Join(arguments) => join::run(&arguments),
            Command::Sample(arguments) => sample::run(&arguments),
        }
    }
}

#[cfg(test)]
mod tests {
    use super::*;
    use clap::CommandFactory;

    /// Every option is in its help text, and no text has an option that there is not.
    #[test]
    fn the_help_texts_are_true() {
        Cli::command().debug_assert();
        for (name, text) in [
            ("close", include_str!("../help/close.txt")),
            ("check", include_str!("../help/check.txt")),
            ("cut", include_str!("../help/cut.txt")),
            ("join", include_str!("../help/join.txt")),
            ("sample", include_str!("../help/sample.txt")),
        ] {
            let command = Cli::command();
            let command = command.find_subcommand(name).expect("a subcommand");
            let known: Vec<&str> = command.get_arguments().filter_map(|a| a.get_long()).collect();
            let told: Vec<&str> = text
                .split(|c: char| !(c.is_ascii_lowercase() || c == '-'))
                .filter_map(|word| word.strip_prefix("--"))
                .filter(|word| !word.is_empty())
                .collect();
            for option in &known {
                assert!(told.contains(option), "{name}: --{option} is not told");
            }
            for option in told {
                let known = known.contains(&option) || option == "help";
                assert!(known, "{name}: --{option} is told");
            }
            assert!(include_str!("../help/yongpham.txt").contains(&format!("yongpham {name}")));
        }
    }
}
