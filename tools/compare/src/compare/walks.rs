//! The full walk and the tile lists, made over the tree of the Rust's recorder.
//!
//! The Rust has neither. Both are written as the rules state them, without passing over anything: a tile list here asks
//! every draw and every clip, whatever the boxes of the layers around them are. That no box of these is short is
//! asserted, so that it would show as a panic of the Rust.

use crate::draws::Draw;
use crate::script::{Place, Surface};
use old_recorder::geometry::RectU16;
use old_recorder::record::{CommandRecorder, Drawable, Node, RecordedLayer, RecordedLayerKind};
use old_recorder::strip::Strip;
use std::fmt;

/// A line of a walk.
#[derive(Clone, Copy, Debug, PartialEq, Eq)]
pub enum Entry {
    Draw(u32),
    Enter(u32),
    Leave(u32),
    Filter(u32),
}

impl fmt::Display for Entry {
    fn fmt(&self, f: &mut fmt::Formatter<'_>) -> fmt::Result {
        match self {
            Self::Draw(number) => write!(f, "Draw {number}"),
            Self::Enter(number) => write!(f, "Enter {number}"),
            Self::Leave(number) => write!(f, "Leave {number}"),
            Self::Filter(number) => write!(f, "Filter {number}"),
        }
    }
}

/// Everything that is recorded, in its order.
pub fn full_walk(recorder: &CommandRecorder<Draw>) -> Vec<Entry> {
    let mut list = Vec::new();
    walk_nodes(recorder, &recorder.nodes, &mut list);
    list
}

fn walk_nodes(recorder: &CommandRecorder<Draw>, nodes: &[Node], list: &mut Vec<Entry>) {
    for node in nodes {
        list.extend(node.draws.clone().map(Entry::Draw));
        if let Some(number) = node.layer {
            list.push(Entry::Enter(number));
            walk_nodes(recorder, &recorder.layers[number as usize].nodes, list);
            list.push(Entry::Leave(number));
        }
    }
}

/// The nodes of a surface; none where the number is not that of a recorded filter layer.
pub fn surface_nodes(recorder: &CommandRecorder<Draw>, surface: Surface) -> Option<&[Node]> {
    match surface {
        Surface::Scene => Some(&recorder.nodes),
        Surface::Layer(number) => {
            let layer = recorder.layers.get(number as usize)?;
            is_filter(layer).then_some(&layer.nodes)
        }
    }
}

fn is_filter(layer: &RecordedLayer) -> bool {
    matches!(layer.kind, RecordedLayerKind::Filter { .. })
}

/// What one tile of a surface shows.
pub fn tile_list(
    recorder: &CommandRecorder<Draw>,
    strips: &[Strip],
    nodes: &[Node],
    place: Place,
) -> Vec<Entry> {
    let mut lister = TileLister {
        recorder,
        strips,
        place,
        list: Vec::new(),
    };
    lister.add_nodes(nodes, Around::SURFACE);
    lister.list
}

/// What the layers around a node, up to the surface, do to the tile.
#[derive(Clone, Copy)]
struct Around {
    /// Some layer's clip hides the tile.
    hidden: bool,
    /// Every layer's box covers the tile.
    covered: bool,
}

impl Around {
    const SURFACE: Self = Self {
        hidden: false,
        covered: true,
    };
}

struct TileLister<'a> {
    recorder: &'a CommandRecorder<Draw>,
    strips: &'a [Strip],
    place: Place,
    list: Vec<Entry>,
}

impl TileLister<'_> {
    fn add_nodes(&mut self, nodes: &[Node], around: Around) {
        for node in nodes {
            for number in node.draws.clone() {
                self.add_draw(number, around);
            }
            if let Some(number) = node.layer {
                self.add_layer(number, around);
            }
        }
    }

    fn add_draw(&mut self, number: u32, around: Around) {
        let bbox = self.recorder.draws[number as usize].bbox(self.strips);
        if !around.hidden && bbox.is_some_and(|bbox| self.is_covered_by(bbox)) {
            self.show(Entry::Draw(number), around);
        }
    }

    fn add_layer(&mut self, number: u32, around: Around) {
        let layer = &self.recorder.layers[number as usize];
        match &layer.kind {
            RecordedLayerKind::Filter { placement, .. } => {
                if !around.hidden && self.is_covered_by(placement.dest_bbox()) {
                    self.show(Entry::Filter(number), around);
                }
            }
            RecordedLayerKind::Regular => self.add_regular(number, layer, around),
        }
    }

    fn add_regular(&mut self, number: u32, layer: &RecordedLayer, around: Around) {
        let clip = layer.props.clip_path.as_ref();
        let clipped = clip.is_some_and(|clip| !self.is_covered_by(clip.bbox));
        let inside = Around {
            hidden: around.hidden || clipped,
            covered: around.covered && self.is_covered_by(layer.bbox),
        };
        if inside.covered {
            self.list.push(Entry::Enter(number));
        }
        self.add_nodes(&layer.nodes, inside);
        if inside.covered {
            self.list.push(Entry::Leave(number));
        }
    }

    /// Lists what the tile shows: whatever no clip hides lies in the boxes of all layers around it.
    fn show(&mut self, entry: Entry, around: Around) {
        assert!(around.covered, "the box of a layer around {entry} is short");
        self.list.push(entry);
    }

    /// Whether a box holds the tile's first pixel.
    fn is_covered_by(&self, bbox: RectU16) -> bool {
        bbox.contains(4 * self.place.column, 4 * self.place.row)
    }
}
