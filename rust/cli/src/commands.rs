//! The subcommands, and the choice among them by the first word.

use crate::failure::Failure;
use crate::{output, sheet};

/// A subcommand.
struct Command {
    name: &'static str,
    /// What it does, in a line.
    does: &'static str,
    /// Runs it on the words behind its name.
    run: fn(&[Vec<u8>]) -> Result<(), Failure>,
}

/// All of them; the first is the one where none is named.
const COMMANDS: [Command; 1] = [Command {
    name: "sheet",
    does: "prints the sheet of a sighting in English, Danish, Russian and Welsh",
    run: sheet::run,
}];

/// Runs the command that the words ask for. A first word with a `-` is an
/// option of the first command.
pub fn run(words: &[Vec<u8>]) -> Result<(), Failure> {
    let Some((first, rest)) = words.split_first() else {
        return (COMMANDS[0].run)(words);
    };
    if first == b"--help" {
        return output::write(help().as_bytes());
    }
    if first.starts_with(b"-") {
        return (COMMANDS[0].run)(words);
    }
    match COMMANDS.iter().find(|c| c.name.as_bytes() == first) {
        Some(command) => (command.run)(rest),
        None => Err(Failure::line(&[
            b"there is no command ",
            first,
            b"; --help lists them",
        ])),
    }
}

fn help() -> String {
    let mut text = String::from("usage: weszlagyo [COMMAND] [OPTIONS]\n\n");
    for command in &COMMANDS {
        text.push_str(&format!("  {:<10} {}\n", command.name, command.does));
    }
    text.push_str(&format!(
        "\nWhere no command is named, it is {}. `weszlagyo COMMAND --help` lists the options of one.\n\
         The status is 0, or 1 where something is wrong, which is then said on standard error.\n",
        COMMANDS[0].name
    ));
    text
}
