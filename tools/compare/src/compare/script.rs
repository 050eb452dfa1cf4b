//! What a script means: its kind, its lists and its calls, or its first faulty line.
//!
//! Written from the page that states the format (docs/SCRIPT.md), not from the code of `sheet`.

use old_recorder::geometry::{PaddingU16, RectU16};
use old_recorder::peniko::BlendMode;
use old_recorder::strip::Strip;
use std::fmt;

/// A script without a fault.
pub struct Script {
    pub strips: Vec<Strip>,
    /// How many places the draw list has.
    pub places: usize,
    pub calls: Vec<Call>,
}

/// A call and the number of its line, from 1.
pub struct Call {
    pub line: usize,
    pub action: Action,
}

/// What a call asks for.
pub enum Action {
    Reset { width: u16, height: u16 },
    Draw(Shape),
    Open(Opening),
    Close,
    Walk { room: Option<u32> },
    Tile { view: View, room: Option<u32> },
    Hit(Place),
    Report,
}

/// What is drawn.
#[derive(Clone, Copy, Debug)]
pub enum Shape {
    /// A rectangle of pixels.
    Fill {
        rect: RectU16,
        mode: Option<BlendMode>,
    },
    /// A range of the strip list.
    Run { start: u32, end: u32 },
}

/// The properties of a layer that is to be opened.
#[derive(Clone, Copy)]
pub struct Opening {
    pub mode: BlendMode,
    pub opacity: f32,
    pub mask: Option<u32>,
    pub clip: Option<Clip>,
    pub filter: Option<FilterPart>,
}

/// A clip: its box, and the strips of its path.
#[derive(Clone, Copy)]
pub struct Clip {
    pub bbox: RectU16,
    pub start: u32,
    pub end: u32,
    pub thread: u8,
}

/// A filter's number and its paddings.
#[derive(Clone, Copy)]
pub struct FilterPart {
    pub number: u32,
    pub padding: PaddingU16,
    pub source: PaddingU16,
}

/// A tile on a surface.
#[derive(Clone, Copy)]
pub struct View {
    pub surface: Surface,
    pub place: Place,
}

/// What a tile list is made for.
#[derive(Clone, Copy)]
pub enum Surface {
    Scene,
    Layer(u32),
}

impl fmt::Display for Surface {
    fn fmt(&self, f: &mut fmt::Formatter<'_>) -> fmt::Result {
        match self {
            Self::Scene => f.write_str("scene"),
            Self::Layer(number) => write!(f, "{number}"),
        }
    }
}

/// The column and the row of a tile.
#[derive(Clone, Copy)]
pub struct Place {
    pub column: u16,
    pub row: u16,
}

impl fmt::Display for Place {
    fn fmt(&self, f: &mut fmt::Formatter<'_>) -> fmt::Result {
        write!(f, "{} {}", self.column, self.row)
    }
}

/// The first faulty line. Why it is faulty is for people, and not compared.
#[derive(Debug, PartialEq, Eq)]
pub struct Fault {
    pub line: usize,
    pub reason: &'static str,
}

/// Why a line is faulty.
type Reason = &'static str;

/// Which draws a sheet holds.
#[derive(Clone, Copy, PartialEq, Eq)]
enum Kind {
    Fills,
    Runs,
}

/// Reads a script, up to its first fault.
pub fn read(text: &[u8]) -> Result<Script, Fault> {
    let mut reader = Reader::default();
    for (index, line) in lines(text).enumerate() {
        let line_number = index + 1;
        reader
            .read_line(line_number, line)
            .map_err(|reason| Fault {
                line: line_number,
                reason,
            })?;
    }
    Ok(reader.finish())
}

/// The lines of a text, without their ends: LF, or CR and LF.
fn lines(text: &[u8]) -> impl Iterator<Item = &[u8]> {
    text.split_inclusive(|byte| *byte == b'\n').map(|line| {
        let ended = line.strip_suffix(b"\r\n");
        ended.or_else(|| line.strip_suffix(b"\n")).unwrap_or(line)
    })
}

/// The script as far as it has been read.
#[derive(Default)]
struct Reader {
    kind: Option<Kind>,
    /// Whether any line had a meaning, so that `kind` comes too late.
    begun: bool,
    strips: Vec<Strip>,
    places: Option<usize>,
    calls: Vec<Call>,
    draw_lines: usize,
}

impl Reader {
    fn read_line(&mut self, line: usize, bytes: &[u8]) -> Result<(), Reason> {
        let text = std::str::from_utf8(bytes).map_err(|_| "the text is not UTF-8")?;
        let mut words = Words::new(text);
        let Some(word) = words.next() else {
            return Ok(());
        };
        if word.starts_with('#') {
            return Ok(());
        }
        match word {
            "kind" => self.read_kind(&mut words)?,
            "strip" => self.read_strip(&mut words)?,
            "places" => self.read_places(&mut words)?,
            _ => self.read_call(line, word, &mut words)?,
        }
        self.begun = true;
        words.finish()
    }

    fn read_kind(&mut self, words: &mut Words) -> Result<(), Reason> {
        if self.begun {
            return Err("`kind` comes too late");
        }
        self.kind = Some(match words.next() {
            Some("fill") => Kind::Fills,
            Some("run") => Kind::Runs,
            _ => return Err("no such kind of draw"),
        });
        Ok(())
    }

    fn read_strip(&mut self, words: &mut Words) -> Result<(), Reason> {
        self.before_calls()?;
        self.strips.push(Strip {
            x: words.number()?,
            y: words.number()?,
            width: words.number()?,
        });
        Ok(())
    }

    fn read_places(&mut self, words: &mut Words) -> Result<(), Reason> {
        self.before_calls()?;
        if self.places.is_some() {
            return Err("`places` a second time");
        }
        self.places = Some(words.number::<u32>()? as usize);
        Ok(())
    }

    fn before_calls(&self) -> Result<(), Reason> {
        if self.calls.is_empty() {
            Ok(())
        } else {
            Err("this line comes too late")
        }
    }

    fn read_call(&mut self, line: usize, word: &str, words: &mut Words) -> Result<(), Reason> {
        let action = match word {
            "reset" => Action::Reset {
                width: words.number()?,
                height: words.number()?,
            },
            "fill" => Action::Draw(self.draw(Kind::Fills, read_fill(words)?)?),
            "run" => Action::Draw(self.draw(Kind::Runs, read_run(words)?)?),
            "open" => Action::Open(read_opening(words)?),
            "close" => Action::Close,
            "walk" => Action::Walk {
                room: read_room(words)?,
            },
            "tile" => Action::Tile {
                view: read_view(words)?,
                room: read_room(words)?,
            },
            "hit" => Action::Hit(read_place(words)?),
            "report" => Action::Report,
            _ => return Err("no such call"),
        };
        self.calls.push(Call { line, action });
        Ok(())
    }

    /// A sheet holds draws of one kind.
    fn draw(&mut self, kind: Kind, shape: Shape) -> Result<Shape, Reason> {
        if self.kind.unwrap_or(Kind::Fills) != kind {
            return Err("the sheet holds draws of the other kind");
        }
        self.draw_lines += 1;
        Ok(shape)
    }

    fn finish(self) -> Script {
        Script {
            strips: self.strips,
            places: self.places.unwrap_or(self.draw_lines),
            calls: self.calls,
        }
    }
}

fn read_fill(words: &mut Words) -> Result<Shape, Reason> {
    Ok(Shape::Fill {
        rect: read_rect(words)?,
        mode: read_mode(words)?,
    })
}

fn read_run(words: &mut Words) -> Result<Shape, Reason> {
    Ok(Shape::Run {
        start: words.number()?,
        end: words.number()?,
    })
}

fn read_opening(words: &mut Words) -> Result<Opening, Reason> {
    Ok(Opening {
        mode: read_mode(words)?.unwrap_or_default(),
        opacity: read_opacity(words)?,
        mask: if words.take("mask") {
            Some(words.number()?)
        } else {
            None
        },
        clip: read_clip(words)?,
        filter: read_filter(words)?,
    })
}

fn read_mode(words: &mut Words) -> Result<Option<BlendMode>, Reason> {
    if !words.take("mode") {
        return Ok(None);
    }
    Ok(Some(BlendMode {
        mix: words.number()?,
        compose: words.number()?,
    }))
}

fn read_opacity(words: &mut Words) -> Result<f32, Reason> {
    if !words.take("opacity") {
        return Ok(1.0);
    }
    let word = words.next().ok_or("a number is missing")?;
    word.parse().map_err(|_| "this is no opacity")
}

fn read_clip(words: &mut Words) -> Result<Option<Clip>, Reason> {
    if !words.take("clip") {
        return Ok(None);
    }
    let bbox = read_rect(words)?;
    let has_path = words.take("path");
    let mut clip = Clip {
        bbox,
        start: 0,
        end: 0,
        thread: 0,
    };
    if has_path {
        clip.start = words.number()?;
        clip.end = words.number()?;
        clip.thread = words.number()?;
    }
    Ok(Some(clip))
}

fn read_filter(words: &mut Words) -> Result<Option<FilterPart>, Reason> {
    if !words.take("filter") {
        return Ok(None);
    }
    let number = words.number()?;
    words.expect("pad")?;
    let padding = read_padding(words)?;
    words.expect("source")?;
    let source = read_padding(words)?;
    Ok(Some(FilterPart {
        number,
        padding,
        source,
    }))
}

fn read_rect(words: &mut Words) -> Result<RectU16, Reason> {
    Ok(RectU16 {
        x0: words.number()?,
        y0: words.number()?,
        x1: words.number()?,
        y1: words.number()?,
    })
}

fn read_padding(words: &mut Words) -> Result<PaddingU16, Reason> {
    Ok(PaddingU16 {
        left: words.number()?,
        top: words.number()?,
        right: words.number()?,
        bottom: words.number()?,
    })
}

fn read_view(words: &mut Words) -> Result<View, Reason> {
    let surface = if words.take("scene") {
        Surface::Scene
    } else {
        Surface::Layer(words.number()?)
    };
    let place = read_place(words)?;
    Ok(View { surface, place })
}

fn read_place(words: &mut Words) -> Result<Place, Reason> {
    Ok(Place {
        column: words.number()?,
        row: words.number()?,
    })
}

fn read_room(words: &mut Words) -> Result<Option<u32>, Reason> {
    if !words.take("room") {
        return Ok(None);
    }
    Ok(Some(words.number()?))
}

/// The words of a line that are still to be read.
struct Words<'a>(Vec<&'a str>);

impl<'a> Words<'a> {
    fn new(line: &'a str) -> Self {
        let words = line.split([' ', '\t']).filter(|word| !word.is_empty());
        Self(words.rev().collect())
    }

    fn next(&mut self) -> Option<&'a str> {
        self.0.pop()
    }

    /// Takes the next word where it is the given one.
    fn take(&mut self, word: &str) -> bool {
        let found = self.0.last() == Some(&word);
        if found {
            self.0.pop();
        }
        found
    }

    fn expect(&mut self, word: &str) -> Result<(), Reason> {
        if self.take(word) {
            Ok(())
        } else {
            Err("a word is missing")
        }
    }

    /// A number of decimal digits, not wider than its type.
    fn number<N: TryFrom<u64>>(&mut self) -> Result<N, Reason> {
        let word = self.next().ok_or("a number is missing")?;
        if !word.bytes().all(|byte| byte.is_ascii_digit()) {
            return Err("this is no number");
        }
        let digits = word.trim_start_matches('0');
        let value: u64 = match digits {
            "" => 0,
            _ => digits.parse().map_err(|_| "this number is too wide")?,
        };
        N::try_from(value).map_err(|_| "this number is too wide")
    }

    fn finish(self) -> Result<(), Reason> {
        if self.0.is_empty() {
            Ok(())
        } else {
            Err("a word too many")
        }
    }
}
