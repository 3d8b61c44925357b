//! The program itself, and the pictures that the documents show: they are what it draws.

use picture::example::example;
use picture::{svg::svg, text::text, Limits, Picture, Window};
use std::process::{Command, Output};
use std::{env, fs, path::PathBuf};

fn run(words: &[&str]) -> Output {
    Command::new(env!("CARGO_BIN_EXE_picture")).args(words).output().expect("it runs")
}

fn scratch(name: &str) -> PathBuf {
    PathBuf::from(env!("CARGO_TARGET_TMPDIR")).join(name)
}

fn picture_of_the_example() -> Picture {
    let (bytes, space) = example().expect("it fits");
    Picture::of(Window { bytes: &bytes, origin: space.origin() }, space.root(), Limits::default())
}

#[test]
fn draws_text_and_svg() {
    let (bytes, space) = example().expect("it fits");
    let (image, drawing) = (scratch("image"), scratch("drawing.svg"));
    fs::write(&image, &bytes[..]).unwrap();
    let (image, drawing) = (image.to_str().unwrap(), drawing.to_str().unwrap());
    let (origin, root) = (format!("{:#x}", space.origin()), space.root().to_string());
    let ran = run(&[image, &origin, &root, "--svg", drawing]);
    assert!(ran.status.success());
    assert_eq!(String::from_utf8(ran.stdout).unwrap(), text(&picture_of_the_example()));
    assert_eq!(fs::read_to_string(drawing).unwrap(), svg(&picture_of_the_example()));
    let short = run(&[image, &origin, &root, "--rows", "1", "--tables", "1"]);
    assert!(String::from_utf8(short.stdout).unwrap().contains("not drawn"));
}

#[test]
fn says_what_is_wrong() {
    let image = scratch("nothing");
    fs::write(&image, []).unwrap();
    let image = image.to_str().unwrap();
    let cases: [(&[&str], i32, &str); 6] = [
        (&[], 2, "an image, its origin and a root are needed"),
        (&[image, "0", "zero"], 2, "this is no number: zero"),
        (&[image, "0", "0", "--svg"], 2, "--svg needs a value"),
        (&[image, "0", "0", "--colour"], 2, "there is no option --colour"),
        (&["/nowhere/at/all", "0", "0"], 1, "/nowhere/at/all cannot be read"),
        (&[image, "0", "0", "--svg", "/nowhere/at/all"], 1, "/nowhere/at/all cannot be written"),
    ];
    for (words, status, why) in cases {
        let ran = run(words);
        let said = String::from_utf8(ran.stderr).unwrap();
        assert_eq!(ran.status.code(), Some(status), "{words:?}");
        assert!(said.contains(why) && !said.contains("panicked"), "{words:?}: {said}");
    }
}

#[test]
fn the_readme_shows_what_is_drawn() {
    let readme = include_str!("../../../README.md");
    let shown = readme.split("```text\nroot at ").nth(1).expect("a picture").split("```").next().expect("it ends");
    assert_eq!(format!("root at {shown}"), text(&picture_of_the_example()));
    assert!(readme.contains("](docs/picture.svg)"));
    assert_eq!(
        include_str!("../../../docs/picture.svg"),
        svg(&picture_of_the_example()),
        "`make picture` draws it anew"
    );
}
