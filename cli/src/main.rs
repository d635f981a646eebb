//! `lumeviqo`: page files surveyed, pages explained, rows listed, pages mended from a second copy. The reading is the proved library's; here are
//! files, maps, threads, words and pictures.
mod args;
mod explain;
mod failure;
mod manual;
mod map;
mod mend;
mod newfile;
mod notes;
mod outcome;
mod output;
mod paint;
mod patch;
mod picture;
mod progress;
mod reading;
mod rows;
mod sketch;
mod source;
mod survey;
mod sweep;
mod tally;
mod words;

use std::process::ExitCode;

use args::Command;

fn main() -> ExitCode {
    let asked = args::asked();
    let status = match run(&asked) {
        Ok(status) => status,
        Err(failure) => {
            if let Some(message) = failure.message() {
                output::tell(format_args!("lumeviqo: {message}"));
            }
            failure.status()
        }
    };
    ExitCode::from(status)
}

fn run(asked: &args::Words) -> failure::Result<u8> {
    let common = &asked.common;
    sweep::watch_for_interrupts()?;
    match &asked.command {
        Command::Survey(survey) => survey::run(survey, common),
        Command::Page(page) => explain::run(page, common),
        Command::Rows(rows) => rows::run(rows, common),
        Command::Mend(mend) => mend::run(mend, common),
        Command::Completions { shell } => manual::completions(*shell, common),
        Command::Man => manual::man(common),
    }
}
