//! The draws of a sheet, as draws of the Rust's recorder.

use crate::script::Shape;
use old_recorder::geometry::RectU16;
use old_recorder::peniko::BlendMode;
use old_recorder::record::Drawable;
use old_recorder::strip::Strip;
use old_recorder::util::RectExt;

/// A draw beside the line that made it.
#[derive(Debug)]
pub struct Draw {
    pub line: usize,
    pub shape: Shape,
}

impl Drawable for Draw {
    fn bbox(&self, strips: &[Strip]) -> Option<RectU16> {
        match self.shape {
            Shape::Fill { rect, .. } => Some(rect.snap_to_tile_coordinates()),
            Shape::Run { start, end } => run_box(start as usize, end as usize, strips),
        }
    }

    fn blend_mode(&self) -> Option<&BlendMode> {
        match &self.shape {
            Shape::Fill { mode, .. } => mode.as_ref(),
            Shape::Run { .. } => None,
        }
    }
}

/// The union of the snapped strips of a range that is cut at the list's end.
fn run_box(start: usize, end: usize, strips: &[Strip]) -> Option<RectU16> {
    let end = end.min(strips.len());
    let strips = strips.get(start..end).unwrap_or_default();
    strips.iter().filter_map(strip_box).reduce(|mut all, next| {
        all.union(next);
        all
    })
}

/// The snapped rectangle of a strip; one without width, and one past the last tile, counts for nothing.
fn strip_box(strip: &Strip) -> Option<RectU16> {
    let Strip { x, y, width } = *strip;
    let last = |edge: u16, length: u16| {
        let high = edge.checked_add(length)?;
        (high <= 65_532).then_some(high)
    };
    if width == 0 {
        return None;
    }
    let rect = RectU16::new(x, y, last(x, width)?, last(y, 4)?);
    Some(rect.snap_to_tile_coordinates())
}
