//! picture: the tables of a window as text, and with --svg as a drawing too.

use picture::{svg::svg, text::text, Limits, Picture, Window};
use std::io::{stdout, Write};
use std::process::ExitCode;
use std::{env, fs};

const USAGE: &str = "usage: picture IMAGE ORIGIN ROOT [--svg FILE] [--rows N] [--tables N]
  IMAGE   a file with bytes of physical memory
  ORIGIN  the physical address of the first of them
  ROOT    the physical address of the root table, as in CR3
  --svg FILE   draws it into FILE too
  --rows N     rows of one table that are drawn (40)
  --tables N   tables that are drawn (64)
Numbers are decimal, or hexadecimal after 0x.";

struct Arguments {
    image: String,
    origin: u64,
    root: u64,
    svg: Option<String>,
    limits: Limits,
}

fn number(said: &str) -> Result<u64, String> {
    let digits = said.replace('_', "");
    let number = match digits.strip_prefix("0x") {
        Some(digits) => u64::from_str_radix(digits, 16),
        None => digits.parse(),
    };
    number.map_err(|_| format!("this is no number: {said}"))
}

fn arguments(words: impl Iterator<Item = String>) -> Result<Arguments, String> {
    let (mut plain, mut svg, mut limits) = (vec![], None, Limits::default());
    let mut words = words;
    while let Some(word) = words.next() {
        let mut value = || words.next().ok_or(format!("{word} needs a value"));
        let limit = |said: String| number(&said).map(|limit| limit.max(1) as usize);
        match word.as_str() {
            "--svg" => svg = Some(value()?),
            "--rows" => limits.rows = limit(value()?)?,
            "--tables" => limits.tables = limit(value()?)?,
            option if option.starts_with("--") => return Err(format!("there is no option {option}")),
            _ => plain.push(word),
        }
    }
    match plain.as_slice() {
        [image, origin, root] => {
            Ok(Arguments { image: image.clone(), origin: number(origin)?, root: number(root)?, svg, limits })
        }
        _ => Err("an image, its origin and a root are needed".into()),
    }
}

fn run(arguments: &Arguments) -> Result<(), String> {
    let Arguments { image, origin, root, svg: file, limits } = arguments;
    let bytes = fs::read(image).map_err(|error| format!("{image} cannot be read: {error}"))?;
    let picture = Picture::of(Window { bytes: &bytes, origin: *origin }, *root, *limits);
    // Whoever reads it may have seen enough.
    let _ = stdout().write_all(text(&picture).as_bytes());
    match file {
        Some(file) => fs::write(file, svg(&picture)).map_err(|error| format!("{file} cannot be written: {error}")),
        None => Ok(()),
    }
}

fn main() -> ExitCode {
    let arguments = match arguments(env::args().skip(1)) {
        Ok(arguments) => arguments,
        Err(why) => {
            eprintln!("picture: {why}\n{USAGE}");
            return ExitCode::from(2);
        }
    };
    match run(&arguments) {
        Ok(()) => ExitCode::SUCCESS,
        Err(why) => {
            eprintln!("picture: {why}");
            ExitCode::FAILURE
        }
    }
}
