//! The side that is made here, on scripts whose answers are known.

use crate::{make, replay, script};
use std::fs;

/// What the Rust's side prints for a script; one line for a script with a fault.
fn printed(text: &str) -> Vec<String> {
    match script::read(text.as_bytes()) {
        Ok(script) => {
            let lines = replay::replay(&script).lines;
            lines.iter().map(|line| line.text().to_string()).collect()
        }
        Err(fault) => vec![format!("line {}", fault.line)],
    }
}

/// The lines for a script, the last ones only.
fn assert_ends(text: &str, expected: &[&str]) {
    let printed = printed(text);
    let start = printed.len().saturating_sub(expected.len());
    assert_eq!(printed[start..], *expected, "{text}");
}

/// The coupon beside the program `sheet`, which was worked out by hand.
#[test]
fn coupon() {
    let folder = concat!(env!("CARGO_MANIFEST_DIR"), "/../../crates/sheet/");
    let file = |name| fs::read_to_string(format!("{folder}{name}")).expect("the coupon is there");
    let expected = file("stdout");
    let expected: Vec<&str> = expected.lines().collect();
    assert_eq!(printed(&file("stdin")), expected);
}

#[test]
fn scenes() {
    assert_ends("reset 1001 6", &["1 reset 1004 8"]);
    assert_ends("reset 65532 1", &["1 reset 65532 4"]);
    assert_ends("reset 65535 0", &["1 reset 0 0"]);
    let refused = "1 refused 2 the scene is wider or higher than 65532";
    assert_ends("reset 65533 1", &[refused]);
}

#[test]
fn walk_of_three_nodes() {
    assert_ends(
        "fill 0 0 4 4\nopen\nfill 0 0 4 4\nclose\nfill 0 0 4 4\nwalk",
        &["6 walk 5: Draw 0, Enter 0, Draw 1, Leave 0, Draw 2"],
    );
}

#[test]
fn clip_around_nothing() {
    assert_ends(
        "open clip 4 4 12 12\nclose\nreport",
        &["3 layer 0 depth 1 regular box 4 4 4 4 mode 0 3 opacity 1065353216 mask none clip 4 4 12 12 path 0 0 0 nodes"],
    );
}

#[test]
fn placements() {
    let layer = |contents: &str, box_to_origin: &str| {
        let filter = "filter 7 pad 4 4 4 4 source 20 4 0 0";
        let script = format!("open {filter}\nfill {contents}\nclose\nreport");
        let rest = "mode 0 3 opacity 1065353216 mask none clip none nodes 0..1";
        assert_ends(
            &script,
            &[&format!(
                "4 layer 0 depth 1 {filter} {box_to_origin} {rest}"
            )],
        );
    };
    layer("8 8 40 16", "box 4 4 44 20 dest 0 0 24 16 origin 16 0");
    layer("8 8 16 16", "box 4 4 20 20 dest 0 0 0 16 origin 16 0");
}

#[test]
fn filter_at_the_last_tile() {
    let script =
        |right| format!("open filter 1 pad 0 0 {right} 0 source 0 0 0 0\nfill 0 0 65528 4\nclose");
    assert_ends(&script(4), &["3 leave 0 filter"]);
    let refused = "3 refused 9 the filter layer with its padding passes 65532";
    assert_ends(&script(5), &[refused]);
}

#[test]
fn tile_lists() {
    assert_ends(
        "open clip 0 0 8 8\nfill 0 0 16 16\nclose\ntile scene 1 1\ntile scene 2 1\nhit 1 1\nhit 2 1",
        &[
            "4 tile scene 1 1 3: Enter 0, Draw 0, Leave 0",
            "5 tile scene 2 1 0:",
            "6 hit 1 1 Draw 0 line 2",
            "7 hit 2 1 none",
        ],
    );
}

/// A filter layer is one entry around itself, and its own clip hides nothing.
#[test]
fn tile_lists_of_a_filter_layer() {
    let filter = "filter 1 pad 0 0 0 0 source 4 0 0 0";
    assert_ends(
        &format!("open\nopen clip 0 0 4 4 {filter}\nfill 8 0 12 4\nclose\nclose\ntile scene 1 0\ntile 1 2 0\ntile 0 0 0\ntile 1 2 0 room 0"),
        &[
            "6 tile scene 1 0 3: Enter 0, Filter 1, Leave 0",
            "7 tile 1 2 0 1: Draw 0",
            "8 refused 12 the surface is not the scene or a filter layer",
            "9 refused 11 the output list has too few places",
        ],
    );
}

#[test]
fn faulty_lines() {
    assert_eq!(printed("report\nstrip 0 0 4"), ["line 2"]);
    assert_eq!(printed("\n# x\nfill 0 0 4 65536"), ["line 3"]);
    assert_eq!(printed("kind run\nfill 0 0 4 4"), ["line 2"]);
}

/// A seed stands for its scripts.
#[test]
fn scripts_of_a_seed() {
    let options = make::Options {
        tiles: true,
        family: None,
    };
    assert_eq!(make::script(3, 5, options), make::script(3, 5, options));
    assert_ne!(make::script(3, 5, options), make::script(3, 6, options));
}
