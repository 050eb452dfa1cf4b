//! The recorder of the Rust crate vello_common 0.3.0, compiled as it stands.
//!
//! `record`, `geometry`, `filter`, `util` and `tile_size` come from the crate's sources (see `build.rs`). What they
//! lean on is not at hand, or plays no part in recording; small stand-ins take its place, under the names that the
//! sources import. Each stand-in keeps what a script of `sheet` can say of it: a strip three numbers, a blend mode two,
//! a mask and a filter one each.

extern crate alloc;

// The sources import `bytemuck` and `smallvec` as crates. This crate answers to both names.
extern crate self as bytemuck;
extern crate self as smallvec;

// `bytemuck`'s two derive macros, for casts to bytes that nobody makes here: two of Rust's own stand for them.
pub use core::default::Default as Zeroable;
pub use core::hash::Hash as Pod;

pub use crate::small_vec::SmallVec;

include!(concat!(env!("OUT_DIR"), "/modules.rs"));

pub mod small_vec;

/// Strips, as long as a script describes them.
pub mod strip {
    /// One row of tiles, from `x` to `x + width` and from `y` to `y + 4`.
    #[derive(Clone, Copy, Debug)]
    pub struct Strip {
        pub x: u16,
        pub y: u16,
        pub width: u16,
    }
}

/// Blend modes as two numbers.
pub mod peniko {
    /// How colours are mixed, and how shapes are composed.
    #[derive(Clone, Copy, Debug, PartialEq, Eq)]
    pub struct BlendMode {
        pub mix: u8,
        pub compose: u8,
    }

    impl Default for BlendMode {
        /// Normal mixing, source over destination.
        fn default() -> Self {
            Self { mix: 0, compose: 3 }
        }
    }
}

/// Masks as numbers: their pixels play no part in recording.
pub mod mask {
    /// The number of a mask.
    #[derive(Clone, Copy, Debug, PartialEq, Eq)]
    pub struct Mask(pub u32);
}

/// Filters as numbers. A script gives the paddings of a filter, so none is worked out here.
pub mod filter_effects {
    use crate::kurbo::{Affine, Rect};

    /// The number of a filter with its transform.
    #[derive(Clone, Copy, Debug, PartialEq, Eq)]
    pub struct Filter(pub u32);

    impl Filter {
        /// No expansion; only `FilterData::new` asks, which is not called.
        pub fn source_expansion(&self, _transform: &Affine) -> Rect {
            Rect::ZERO
        }

        /// No expansion; only `FilterData::new` asks, which is not called.
        pub fn filter_expansion(&self, _transform: &Affine) -> Rect {
            Rect::ZERO
        }
    }
}

/// Shapes with fractions, of which recording uses none.
pub mod kurbo {
    /// A transform; the number of a filter stands for it too.
    #[derive(Clone, Copy, Debug, PartialEq, Eq)]
    pub struct Affine;

    /// A rectangle by its corners.
    #[derive(Clone, Copy, Debug, PartialEq)]
    pub struct Rect {
        pub x0: f64,
        pub y0: f64,
        pub x1: f64,
        pub y1: f64,
    }

    impl Rect {
        pub const ZERO: Self = Self::new(0.0, 0.0, 0.0, 0.0);

        pub const fn new(x0: f64, y0: f64, x1: f64, y1: f64) -> Self {
            Self { x0, y0, x1, y1 }
        }
    }
}

/// Rounding with fractions, which only `FilterData::new` uses.
pub mod math {
    /// The next multiple of `step` that is not below `value`.
    pub fn snap_up(value: f64, step: u16) -> f64 {
        let step = f64::from(step);
        (value / step).ceil() * step
    }
}

/// A tile's two sizes, which `tile_size` gives.
pub mod tile {
    /// A square of pixels.
    #[derive(Clone, Copy, Debug)]
    pub struct Tile;
}
