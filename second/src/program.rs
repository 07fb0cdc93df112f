//! Other programs, given as one text on the command line.

use std::io::{ErrorKind, Write};
use std::path::Path;
use std::process::{Command, Output, Stdio};

/// The path of a file, or words separated by spaces: a program and its arguments.
pub fn command(text: &str) -> Result<Command, String> {
    if Path::new(text).is_file() {
        return Ok(Command::new(text));
    }
    let mut words = text.split_whitespace();
    let Some(program) = words.next() else {
        return Err("an empty command".to_string());
    };
    let mut command = Command::new(program);
    command.args(words);
    Ok(command)
}

/// Starts a program, hands it all of the input, and waits for its end.
pub fn output(text: &str, input: &[u8]) -> Result<Output, String> {
    let mut child = command(text)?
        .stdin(Stdio::piped())
        .stdout(Stdio::piped())
        .stderr(Stdio::piped())
        .spawn()
        .map_err(|why| why.to_string())?;
    if let Some(mut lent) = child.stdin.take() {
        match lent.write_all(input) {
            // It need not read further than the bytes it takes.
            Err(why) if why.kind() != ErrorKind::BrokenPipe => return Err(why.to_string()),
            _ => {}
        }
    }
    child.wait_with_output().map_err(|why| why.to_string())
}

#[cfg(test)]
mod tests {
    use super::{command, output};

    fn said_by(text: &str) -> Option<Vec<u8>> {
        Some(command(text).ok()?.output().ok()?.stdout)
    }

    #[test]
    fn words_and_nothing() {
        assert_eq!(said_by("echo  a b "), Some(b"a b\n".to_vec()));
        assert_eq!(said_by(" "), None);
        assert_eq!(said_by("/no/such/program"), None);
    }

    #[test]
    fn all_of_the_input_or_some_of_it() {
        let said = |text, input| output(text, input).map(|output| output.stdout);
        assert_eq!(said("cat", b"abc"), Ok(b"abc".to_vec()));
        assert_eq!(said("head -c 2", &[7; 500_000]), Ok(vec![7; 2]));
    }
}
