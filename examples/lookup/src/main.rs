//! A service that maps the paths of requests to files below a directory, which no request can
//! leave.
//!
//! `lookup CONFIG` reads its configuration, which is JSON such as `site.json`, and then requests
//! from standard input, one per line, such as `/files/docs/guide.txt`. It prints each request and
//! then the file that it names, that there is no such file, or why it is refused. Requests are
//! resolved lexically, so make sure that no link below the directory leads out of it.
use serde::Deserialize;
use std::io::{self, BufRead, Write};
use std::process::ExitCode;
use std::{env, fs};
use unix_path_proved::{Path, PathBuf};

/// The configuration.
#[derive(Deserialize)]
struct Config {
    /// The directory of the files.
    root: PathBuf,
    /// What the paths of requests begin with.
    prefix: PathBuf,
    /// The file that answers a request for a directory.
    index: Box<Path>,
}

/// Returns the file that a request names, or why the request is refused.
fn file_of(config: &Config, request: &[u8]) -> Result<PathBuf, String> {
    let path = Path::new(request);
    let rest = path.strip_prefix(&config.prefix).map_err(|error| error.to_string())?;
    let mut file = config.root.join_beneath(rest).map_err(|error| error.to_string())?;
    if rest.request_is_root() || path.ends_in_slash() {
        file.push(&config.index);
    }
    Ok(file)
}

/// Writes the request, and the file that it names.
fn answer(config: &Config, request: &[u8], output: &mut impl Write) -> io::Result<()> {
    output.write_all(&[b"== ", request, b"\n"].concat())?;
    match file_of(config, request) {
        Err(why) => writeln!(output, "refused: {why}"),
        Ok(file) => match fs::read(&file) {
            Ok(bytes) => output.write_all(&bytes),
            Err(_) => writeln!(output, "not found: {}", file.display()),
        },
    }
}

fn main() -> io::Result<ExitCode> {
    let Some(name) = env::args_os().nth(1) else {
        eprintln!("usage: lookup CONFIG");
        return Ok(ExitCode::from(2));
    };
    let config: Config = serde_json::from_slice(&fs::read(name)?)?;
    let mut output = io::stdout().lock();
    for request in io::stdin().lock().split(b'\n') {
        answer(&config, &request?, &mut output)?;
    }
    Ok(ExitCode::SUCCESS)
}
