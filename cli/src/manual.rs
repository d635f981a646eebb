//! The manual page and the shells' completions, both made from the definitions of the command line.
use std::fmt::Write;

use clap::{Arg, Command};
use clap_complete::Shell;

use crate::args::{self, Common};
use crate::failure::Result;
use crate::output::Output;

pub fn completions(shell: Shell, common: &Common) -> Result<u8> {
    let mut text = Vec::new();
    clap_complete::generate(shell, &mut args::command(), "lumeviqo", &mut text);
    say(&text, common)
}

pub fn man(common: &Common) -> Result<u8> {
    say(manual().as_bytes(), common)
}

fn say(text: &[u8], common: &Common) -> Result<u8> {
    let mut out = Output::new(common);
    out.bytes(text)?;
    out.flush()?;
    Ok(0)
}

fn manual() -> String {
    let mut command = args::command();
    command.build();
    let mut page = String::new();
    let version = command.get_version().unwrap_or_default();
    let _ = writeln!(page, ".TH LUMEVIQO 1 \"\" \"lumeviqo {}\"", escaped(version));
    let _ = writeln!(page, ".SH NAME\nlumeviqo \\- read SQL Anywhere 17 page files\n.SH SYNOPSIS\n.B lumeviqo\nCOMMAND [OPTIONS]");
    let about = command.get_long_about().or(command.get_about()).map(ToString::to_string).unwrap_or_default();
    let _ = writeln!(page, ".SH DESCRIPTION\n{}.", escaped(&about));
    page.push_str(".SH COMMANDS\n");
    let commands = command.get_subcommands().filter(|command| command.get_name() != "help");
    commands.for_each(|command| put_command(&mut page, command));
    page.push_str(".SH OPTIONS OF ALL COMMANDS\n");
    command.get_arguments().for_each(|argument| put_argument(&mut page, argument));
    let examples = command.get_after_help().map(ToString::to_string).unwrap_or_default();
    let _ = writeln!(page, ".SH EXAMPLES AND STATUS\n.nf\n{}\n.fi", escaped(examples.trim_start_matches("Examples:\n")));
    page
}

fn put_command(page: &mut String, command: &Command) {
    let names: Vec<String> = command.get_positionals().map(|argument| argument.get_id().as_str().to_uppercase()).collect();
    let about = command.get_about().map(ToString::to_string).unwrap_or_default();
    let _ = writeln!(page, ".SS {} {}\n{}", command.get_name(), names.join(" "), escaped(&about));
    let own =
        command.get_arguments().filter(|argument| !argument.is_positional() && !argument.is_global_set() && argument.get_id() != "help");
    own.for_each(|argument| put_argument(page, argument));
}

fn put_argument(page: &mut String, argument: &Arg) {
    let short = argument.get_short().map(|short| format!("-{short}"));
    let long = argument.get_long().map(|long| format!("--{long}"));
    let names: Vec<String> = short.into_iter().chain(long).collect();
    let values = if argument.get_action().takes_values() { argument.get_value_names().unwrap_or_default() } else { &[] };
    let values: String = values.iter().map(|value| format!(" {value}")).collect();
    let help = argument.get_help().map(ToString::to_string).unwrap_or_default();
    let usual: Vec<String> = argument.get_default_values().iter().map(|value| value.to_string_lossy().into()).collect();
    let shown = !values.is_empty() && !usual.is_empty() && !argument.is_hide_default_value_set();
    let usual = if shown { format!("; {} if not given", usual.join(" ")) } else { String::new() };
    let _ = writeln!(page, ".TP\n.B {}{}\n{}{}", escaped(&names.join(", ")), escaped(&values), escaped(&help), escaped(&usual));
}

/// What the formatter would take for its own: backslashes, hyphens, and a dot or quote that begins a line.
fn escaped(text: &str) -> String {
    let text = text.replace('\\', "\\e").replace('-', "\\-");
    let guarded = |line: &str| if line.starts_with(['.', '\'']) { format!("\\&{line}") } else { line.to_string() };
    text.lines().map(guarded).collect::<Vec<_>>().join("\n")
}

#[cfg(test)]
mod tests {
    use super::*;

    #[test]
    fn the_manual_names_every_command_and_option() {
        let page = manual();
        for command in args::command().get_subcommands() {
            assert!(page.contains(&format!(".SS {}", command.get_name())), "{}", command.get_name());
        }
        for option in ["\\-\\-map MAP", "\\-\\-pages A..B", "\\-\\-copy\\-map M2", "\\-o, \\-\\-out OUT"] {
            assert!(page.contains(option), "{option}");
        }
    }

    #[test]
    fn lines_of_text_are_not_taken_for_requests() {
        assert_eq!(escaped(".a\n'b\nc-d\\"), "\\&.a\n\\&'b\nc\\-d\\e");
    }
}
