//! Which calls are refused, decided from the rules (docs/RULES.md) and from nothing else.
//!
//! The Rust panics on some of these calls and accepts the others. Neither can be compared, so a refused call is not
//! made on the Rust's recorder at all, and the sheet's answer is held against the decision made here.

use crate::script::{Clip, FilterPart, Opening, Place};
use old_recorder::geometry::RectU16;

/// The largest multiple of 4 that has 16 bits.
const LAST_EDGE: u16 = 65_532;
/// The last column and the last row of tiles that lie before `LAST_EDGE`.
const LAST_TILE: u16 = 16_382;
const MOST_DRAWS: usize = 1_048_576;
const MOST_LAYERS: usize = 256;

/// A reason to refuse a call.
#[derive(Clone, Copy, Debug, PartialEq, Eq, PartialOrd, Ord)]
pub enum Refusal {
    FillPastEdge = 1,
    ScenePastEdge = 2,
    NoPlaceForDraw = 3,
    TooManyLayers = 4,
    OpacityOutOfRange = 5,
    ClipOffTile = 6,
    ShiftOffTile = 7,
    NoLayerOpen = 8,
    FilterPastEdge = 9,
    LayerOpen = 10,
    NoPlaceInList = 11,
    NoSuchSurface = 12,
    TileOutOfRange = 13,
}

impl Refusal {
    pub fn number(self) -> u32 {
        self as u32
    }

    /// The reason in the words that `sheet` prints.
    pub fn sentence(self) -> &'static str {
        match self {
            Self::FillPastEdge => "a high edge of the fill is above 65532",
            Self::ScenePastEdge => "the scene is wider or higher than 65532",
            Self::NoPlaceForDraw => "there is no place for one more draw",
            Self::TooManyLayers => "256 layers are recorded already",
            Self::OpacityOutOfRange => "the opacity is not a number from 0 to 1",
            Self::ClipOffTile => "an edge of the clip box is not on a tile's edge",
            Self::ShiftOffTile => "the filter's left or top source padding is not a multiple of 4",
            Self::NoLayerOpen => "no layer is open",
            Self::FilterPastEdge => "the filter layer with its padding passes 65532",
            Self::LayerOpen => "a layer is still open",
            Self::NoPlaceInList => "the output list has too few places",
            Self::NoSuchSurface => "the surface is not the scene or a filter layer",
            Self::TileOutOfRange => "the tile's column or row is above 16382",
        }
    }
}

/// Yes, or the refusal of the first question that is answered with no.
pub type Answer = Result<(), Refusal>;

fn ask(yes: bool, refusal: Refusal) -> Answer {
    if yes {
        Ok(())
    } else {
        Err(refusal)
    }
}

pub fn fill(rect: RectU16) -> Answer {
    let fits = rect.x1 <= LAST_EDGE && rect.y1 <= LAST_EDGE;
    ask(is_empty(rect) || fits, Refusal::FillPastEdge)
}

pub fn reset(width: u16, height: u16) -> Answer {
    let nothing = width == 0 || height == 0;
    let fits = width <= LAST_EDGE && height <= LAST_EDGE;
    ask(nothing || fits, Refusal::ScenePastEdge)
}

/// A draw, where `recorded` draws are recorded and the list has `places`.
pub fn draw(recorded: usize, places: usize) -> Answer {
    let fits = recorded < MOST_DRAWS && recorded < places;
    ask(fits, Refusal::NoPlaceForDraw)
}

/// An opening, where `recorded` layers are recorded since the reset.
pub fn open(recorded: usize, opening: &Opening) -> Answer {
    ask(recorded < MOST_LAYERS, Refusal::TooManyLayers)?;
    ask(is_opacity(opening.opacity), Refusal::OpacityOutOfRange)?;
    ask(opening.clip.is_none_or(on_tiles), Refusal::ClipOffTile)?;
    ask(
        opening.filter.is_none_or(shifts_by_tiles),
        Refusal::ShiftOffTile,
    )
}

/// A closing. `open` is absent where no layer is open; otherwise it is the innermost layer's filter, if it has one,
/// and its contents box, if it has contents.
pub fn close(open: Option<(Option<FilterPart>, Option<RectU16>)>) -> Answer {
    let Some((filter, contents)) = open else {
        return Err(Refusal::NoLayerOpen);
    };
    let (Some(filter), Some(contents)) = (filter, contents) else {
        return Ok(());
    };
    let fits = fits_padded(contents.x1, filter.padding.right)
        && fits_padded(contents.y1, filter.padding.bottom);
    ask(fits, Refusal::FilterPastEdge)
}

/// Either walk, while `open` layers are open.
pub fn walk(open: usize) -> Answer {
    ask(open == 0, Refusal::LayerOpen)
}

/// A list of `entries` in an output list of `room` places; without `room` it has just enough.
pub fn output(entries: usize, room: Option<u32>) -> Answer {
    let fits = room.is_none_or(|room| entries <= room as usize);
    ask(fits, Refusal::NoPlaceInList)
}

pub fn surface(is_surface: bool) -> Answer {
    ask(is_surface, Refusal::NoSuchSurface)
}

pub fn place(place: Place) -> Answer {
    let fits = place.column <= LAST_TILE && place.row <= LAST_TILE;
    ask(fits, Refusal::TileOutOfRange)
}

fn is_empty(rect: RectU16) -> bool {
    rect.x0 >= rect.x1 || rect.y0 >= rect.y1
}

/// What is not a number is neither at least 0 nor at most 1.
fn is_opacity(opacity: f32) -> bool {
    (0.0..=1.0).contains(&opacity)
}

fn on_tiles(clip: Clip) -> bool {
    let RectU16 { x0, y0, x1, y1 } = clip.bbox;
    [x0, y0, x1, y1].into_iter().all(is_on_tile)
}

fn shifts_by_tiles(filter: FilterPart) -> bool {
    is_on_tile(filter.source.left) && is_on_tile(filter.source.top)
}

fn is_on_tile(edge: u16) -> bool {
    edge.is_multiple_of(4)
}

fn fits_padded(edge: u16, padding: u16) -> bool {
    u32::from(edge) + u32::from(padding) <= u32::from(LAST_EDGE)
}
