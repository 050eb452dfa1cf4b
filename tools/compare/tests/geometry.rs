//! The Rust's geometry against what docs/RULES.md says of it, in wide numbers, at and around the limits.
//!
//! Scripts reach only a part of these functions' inputs.

use old_recorder::geometry::{PaddingU16, RectU16};
use old_recorder::util::RectExt;
use std::panic;

const EDGES: [u16; 9] = [0, 1, 3, 4, 5, 8, 65_531, 65_532, 65_535];
const PADDINGS: [u16; 6] = [0, 1, 4, 32_768, 65_531, 65_535];
const SHIFTS: [i32; 11] = [
    i32::MIN,
    -65_536,
    -65_535,
    -5,
    -1,
    0,
    1,
    4,
    65_531,
    65_536,
    i32::MAX,
];

/// A rectangle whose edges cannot wrap.
#[derive(Clone, Copy, Debug, PartialEq, Eq)]
struct Wide {
    x0: i64,
    y0: i64,
    x1: i64,
    y1: i64,
}

impl From<RectU16> for Wide {
    fn from(rect: RectU16) -> Self {
        Self {
            x0: rect.x0.into(),
            y0: rect.y0.into(),
            x1: rect.x1.into(),
            y1: rect.y1.into(),
        }
    }
}

impl Wide {
    fn is_empty(self) -> bool {
        self.x0 >= self.x1 || self.y0 >= self.y1
    }

    /// Every edge moved, stopping at 0 and at 65,535.
    fn moved(self, x0: i64, y0: i64, x1: i64, y1: i64) -> Self {
        let stop = |edge: i64| edge.clamp(0, 65_535);
        Self {
            x0: stop(self.x0 + x0),
            y0: stop(self.y0 + y0),
            x1: stop(self.x1 + x1),
            y1: stop(self.y1 + y1),
        }
    }

    /// Low edges down and high edges up to multiples of 4; absent where a high edge would not have 16 bits.
    fn snapped(self) -> Option<Self> {
        let down = |edge: i64| edge / 4 * 4;
        let up = |edge: i64| (edge + 3) / 4 * 4;
        let (x0, y0) = (down(self.x0), down(self.y0));
        if self.is_empty() {
            return Some(Self {
                x0,
                y0,
                x1: x0,
                y1: y0,
            });
        }
        let (x1, y1) = (up(self.x1), up(self.y1));
        (x1 <= 65_532 && y1 <= 65_532).then_some(Self { x0, y0, x1, y1 })
    }
}

/// Calls `check` with every rectangle over the edges.
fn for_rects(mut check: impl FnMut(RectU16)) {
    for x0 in EDGES {
        for y0 in EDGES {
            for x1 in EDGES {
                for y1 in EDGES {
                    check(RectU16::new(x0, y0, x1, y1));
                }
            }
        }
    }
}

#[test]
fn snapping() {
    for_rects(|rect| {
        let snapped = panic::catch_unwind(|| rect.snap_to_tile_coordinates());
        assert_eq!(snapped.ok().map(Wide::from), Wide::from(rect).snapped());
    });
}

#[test]
fn emptiness_and_sizes() {
    for_rects(|rect| {
        let wide = Wide::from(rect);
        assert_eq!(rect.is_empty(), wide.is_empty());
        assert_eq!(i64::from(rect.width()), (wide.x1 - wide.x0).max(0));
        assert_eq!(i64::from(rect.height()), (wide.y1 - wide.y0).max(0));
    });
}

#[test]
fn shifting() {
    for_rects(|rect| {
        let wide = Wide::from(rect);
        for x in SHIFTS {
            for y in SHIFTS {
                let (dx, dy) = (i64::from(x), i64::from(y));
                let shifted = Wide::from(rect.shift((x, y)));
                assert_eq!(shifted, wide.moved(dx, dy, dx, dy), "{rect:?} by {x} {y}");
            }
        }
        for x in EDGES {
            for y in EDGES {
                let (dx, dy) = (-i64::from(x), -i64::from(y));
                let shifted = Wide::from(rect.relative_to_origin((x, y)));
                assert_eq!(shifted, wide.moved(dx, dy, dx, dy), "{rect:?} to {x} {y}");
            }
        }
    });
}

#[test]
fn expanding() {
    for_rects(|rect| {
        let wide = Wide::from(rect);
        for low in PADDINGS {
            for high in PADDINGS {
                // Two paddings for the four sides, each axis with both.
                let expanded = Wide::from(rect.expand(PaddingU16::new(low, high, high, low)));
                let (l, h) = (i64::from(low), i64::from(high));
                assert_eq!(
                    expanded,
                    wide.moved(-l, -h, h, l),
                    "{rect:?} by {low} {high}"
                );
            }
        }
    });
}

#[test]
fn union_and_intersection() {
    let few = [0, 3, 4, 65_535];
    let mut rects = Vec::new();
    for_rects(|rect| rects.push(rect));
    rects.retain(|rect| {
        axes(*rect)
            .as_flattened()
            .iter()
            .all(|edge| few.contains(edge))
    });
    for &one in &rects {
        for &other in &rects {
            let mut union = one;
            union.union(other);
            let cut = one.intersect(other);
            for axis in 0..2 {
                let [low, high] = axes(one)[axis];
                let [other_low, other_high] = axes(other)[axis];
                assert_eq!(
                    axes(union)[axis],
                    [low.min(other_low), high.max(other_high)]
                );
                let cut_low = low.max(other_low);
                assert_eq!(
                    axes(cut)[axis],
                    [cut_low, high.min(other_high).max(cut_low)]
                );
            }
        }
    }
}

/// The low and the high edge on each axis.
fn axes(rect: RectU16) -> [[u16; 2]; 2] {
    [[rect.x0, rect.x1], [rect.y0, rect.y1]]
}
