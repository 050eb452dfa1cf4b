//! Makes the modules of the Rust crate's recorder out of the crate's own sources.
//!
//! The sources are not part of this repository: the environment variable `VELLO_COMMON_SRC` names their folder.
//! `record.rs` and `geometry.rs` are compiled where they lie. Of `filter/mod.rs`, `util.rs` and `tile.rs` the parts
//! that the recorder needs are taken out, letter for letter; their other parts lean on crates that are not at hand.

use std::env;
use std::fs;
use std::path::{Path, PathBuf};

/// The variable that names the folder of the crate's sources.
const SOURCES: &str = "VELLO_COMMON_SRC";

/// The files that are compiled where they lie.
const WHOLE: [&str; 2] = ["geometry", "record"];

/// A module that is put together from parts of one source file.
struct Excerpt {
    /// The module's name.
    module: &'static str,
    /// The source file, from the folder of the sources.
    source: &'static str,
    /// What stands before the parts: imports, or the block around them.
    before: &'static str,
    /// The first line of each part.
    heads: &'static [&'static str],
    /// What stands after the parts.
    after: &'static str,
}

const EXCERPTS: [Excerpt; 3] = [
    Excerpt {
        module: "filter",
        source: "filter/mod.rs",
        before: "use crate::filter_effects::Filter;
use crate::geometry::{PaddingU16, RectU16};
use crate::kurbo::{Affine, Rect};
use crate::math::snap_up;
use crate::tile::Tile;
use crate::util::RectExt;
",
        heads: &[
            "pub struct FilterLayerPlacement {",
            "impl FilterLayerPlacement {",
            "impl Default for FilterLayerPlacement {",
            "pub struct FilterData {",
            "impl FilterData {",
        ],
        after: "",
    },
    Excerpt {
        module: "util",
        source: "util.rs",
        before: "use crate::geometry::RectU16;\nuse crate::tile::Tile;\n",
        heads: &["pub trait RectExt {", "impl RectExt for RectU16 {"],
        after: "",
    },
    Excerpt {
        module: "tile_size",
        source: "tile.rs",
        before: "use crate::tile::Tile;\n\nimpl Tile {",
        heads: &[
            "    pub const WIDTH: u16 = 4;",
            "    pub const HEIGHT: u16 = 4;",
        ],
        after: "}\n",
    },
];

fn main() {
    println!("cargo:rerun-if-env-changed={SOURCES}");
    let sources = sources();
    let out = PathBuf::from(env::var_os("OUT_DIR").expect("cargo names the folder of the build"));
    let mut modules = String::new();
    for name in WHOLE {
        let path = sources.join(name).with_extension("rs");
        depend_on(&path);
        modules += &module(name, &path);
    }
    for excerpt in &EXCERPTS {
        let path = out.join(excerpt.module).with_extension("rs");
        write(&path, &take(excerpt, &sources));
        modules += &module(excerpt.module, &path);
    }
    write(&out.join("modules.rs"), &modules);
}

/// The folder of the sources, as a full path: the modules' paths are read from another folder.
fn sources() -> PathBuf {
    let Some(folder) = env::var_os(SOURCES) else {
        panic!("{SOURCES} has to name the folder src/ of vello_common 0.3.0");
    };
    let folder = Path::new(&folder);
    folder
        .canonicalize()
        .unwrap_or_else(|fault| panic!("{SOURCES}, {}: {fault}", folder.display()))
}

/// Has cargo build again when a source changes.
fn depend_on(path: &Path) {
    println!("cargo:rerun-if-changed={}", path.display());
}

/// The declaration of a module whose text is in `path`.
fn module(name: &str, path: &Path) -> String {
    format!("#[path = {path:?}]\npub mod {name};\n")
}

/// The text of a module that is put together from parts of a file.
fn take(excerpt: &Excerpt, sources: &Path) -> String {
    let path = sources.join(excerpt.source);
    depend_on(&path);
    let text =
        fs::read_to_string(&path).unwrap_or_else(|fault| panic!("{}: {fault}", path.display()));
    let lines: Vec<&str> = text.lines().collect();
    let mut module = String::from(excerpt.before);
    for head in excerpt.heads {
        let Some(part) = part(&lines, head) else {
            panic!("{}: no part begins with `{head}`", path.display());
        };
        module.push('\n');
        module += &part.join("\n");
        module.push('\n');
    }
    module + excerpt.after
}

/// The part of a file that begins with the line `head`, with the comments and attributes above it.
///
/// The sources are formatted: a part whose head opens a brace ends with the first line that is a brace alone, and any
/// other is one line.
fn part<'a>(lines: &'a [&'a str], head: &str) -> Option<&'a [&'a str]> {
    let at = lines.iter().position(|line| *line == head)?;
    let above = lines[..at].iter().rev().take_while(|line| is_preface(line));
    let first = at - above.count();
    let last = if head.ends_with('{') {
        at + lines[at..].iter().position(|line| *line == "}")?
    } else {
        at
    };
    Some(&lines[first..=last])
}

/// Whether a line belongs to the part below it.
fn is_preface(line: &str) -> bool {
    let line = line.trim_start();
    line.starts_with("///") || line.starts_with("#[")
}

fn write(path: &Path, text: &str) {
    fs::write(path, text).unwrap_or_else(|fault| panic!("{}: {fault}", path.display()));
}
