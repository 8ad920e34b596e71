//! Exit status 0: all are closed; 1: some are not; 2: wrong use.

use clap::Parser;
use std::io::Write;
use std::process::ExitCode;
use yongpham_host::cli::Cli;

fn main() -> ExitCode {
    match Cli::parse().run() {
        Ok(true) => ExitCode::SUCCESS,
        Ok(false) => ExitCode::from(1),
        Err(why) => {
            let _ = writeln!(std::io::stderr(), "yongpham: {why} (--help tells how it is called)");
            ExitCode::from(2)
        }
    }
}
