//! What the Rust does with calls that the port refuses: the rows of docs/DIFFERENCES.md, by running.

use old_recorder::filter::FilterData;
use old_recorder::filter_effects::Filter;
use old_recorder::geometry::{PaddingU16, RectU16, SizeU16};
use old_recorder::kurbo::Affine;
use old_recorder::peniko::BlendMode;
use old_recorder::record::{CommandRecorder, Drawable, LayerClip, LayerProps, Node, PoppedLayer};
use old_recorder::strip::Strip;
use old_recorder::util::RectExt;
use std::panic::{self, AssertUnwindSafe};

/// A draw that is its box.
struct Boxed(RectU16);

impl Drawable for Boxed {
    fn bbox(&self, _strips: &[Strip]) -> Option<RectU16> {
        Some(self.0.snap_to_tile_coordinates())
    }

    fn blend_mode(&self) -> Option<&BlendMode> {
        None
    }
}

type Recorder = CommandRecorder<Boxed>;

fn plain_layer() -> LayerProps {
    LayerProps {
        blend_mode: BlendMode::default(),
        opacity: 1.0,
        mask: None,
        clip_path: None,
    }
}

/// A filter with padding on its right, and a source shift to the right.
fn filter(right: u16, shift: u16) -> Option<FilterData> {
    Some(FilterData {
        filter: Filter(1),
        transform: Affine,
        filter_padding: PaddingU16::new(0, 0, right, 0),
        source_padding: PaddingU16::new(shift, 0, 0, 0),
    })
}

fn panics<T>(work: impl FnOnce() -> T) -> bool {
    panic::catch_unwind(AssertUnwindSafe(work)).is_err()
}

#[test]
fn scene_too_large() {
    let mut recorder = Recorder::default();
    assert!(panics(|| recorder.reset(65_533, 1)));
    assert_eq!(recorder.scene_size, SizeU16::ZERO);
    recorder.reset(65_533, 0);
    assert_eq!(recorder.scene_size, SizeU16::ZERO);
    recorder.reset(65_532, 1);
    assert_eq!(recorder.scene_size, SizeU16::from_wh(65_532, 4));
    assert!(panics(|| Recorder::new(1, 65_535)));
}

#[test]
fn closing_with_no_layer_open() {
    assert!(panics(|| Recorder::default().pop_layer()));
}

/// The layer is off the stack when the panic comes, but still the active one: the recorder contradicts itself.
#[test]
fn padded_contents_past_the_last_tile() {
    let mut recorder = Recorder::default();
    recorder.push_layer(plain_layer(), filter(5, 0));
    recorder.push_draw(Boxed(RectU16::new(0, 0, 65_528, 4)), &[]);
    assert!(panics(|| recorder.pop_layer()));
    assert!(!recorder.has_layers());
    recorder.push_draw(Boxed(RectU16::new(0, 0, 4, 4)), &[]);
    assert_eq!(recorder.nodes.len(), 1);
    assert_eq!(recorder.layers[0].nodes[0].draws, 0..2);
    assert!(panics(|| recorder.pop_layer()));
}

#[test]
fn padded_contents_up_to_the_last_tile() {
    let mut recorder = Recorder::default();
    recorder.push_layer(plain_layer(), filter(4, 0));
    recorder.push_draw(Boxed(RectU16::new(0, 0, 65_528, 4)), &[]);
    assert_eq!(recorder.pop_layer(), PoppedLayer::Filter);
    assert_eq!(recorder.layers[0].bbox, RectU16::new(0, 0, 65_532, 4));
}

#[test]
fn source_shift_off_the_tiles() {
    let mut recorder = Recorder::default();
    recorder.push_layer(plain_layer(), filter(0, 3));
    assert_eq!(recorder.pop_layer(), PoppedLayer::Filter);
    recorder.push_layer(plain_layer(), filter(0, 3));
    recorder.push_draw(Boxed(RectU16::new(0, 0, 4, 4)), &[]);
    assert!(panics(|| recorder.pop_layer()));
}

/// The box of a draw is asked only inside a layer.
#[test]
fn fill_past_the_last_tile() {
    let fill = || Boxed(RectU16::new(0, 0, 65_533, 4));
    let mut recorder = Recorder::default();
    recorder.push_draw(fill(), &[]);
    recorder.push_layer(plain_layer(), None);
    assert!(panics(|| recorder.push_draw(fill(), &[])));
}

#[test]
fn more_than_256_layers() {
    let mut recorder = Recorder::default();
    for _ in 0..257 {
        recorder.push_layer(plain_layer(), None);
    }
    assert_eq!(recorder.max_layer_depth, 257);
}

#[test]
fn more_than_1048576_draws() {
    let mut recorder = Recorder::default();
    for _ in 0..1_048_577 {
        recorder.push_draw(Boxed(RectU16::ZERO), &[]);
    }
    assert_eq!(recorder.nodes[0].draws, 0..1_048_577);
}

#[test]
fn opacity_that_is_no_number() {
    let mut recorder = Recorder::default();
    let props = LayerProps {
        opacity: f32::NAN,
        ..plain_layer()
    };
    recorder.push_layer(props, None);
    assert!(recorder.layers[0].props.opacity.is_nan());
}

#[test]
fn clip_box_off_the_tiles() {
    let mut recorder = Recorder::default();
    let clip = LayerClip {
        strip_range: 0..0,
        thread_idx: 0,
        bbox: RectU16::new(1, 0, 4, 4),
    };
    let props = LayerProps {
        clip_path: Some(clip),
        ..plain_layer()
    };
    recorder.push_layer(props, None);
    recorder.push_draw(Boxed(RectU16::new(0, 0, 8, 8)), &[]);
    recorder.pop_layer();
    assert_eq!(recorder.layers[0].bbox, RectU16::new(1, 0, 4, 4));
}

#[test]
fn snapping_past_the_last_tile() {
    assert!(panics(
        || RectU16::new(0, 0, 65_533, 4).snap_to_tile_coordinates()
    ));
    let empty = RectU16::new(65_535, 3, 65_535, 4);
    assert_eq!(
        empty.snap_to_tile_coordinates(),
        RectU16::new(65_532, 0, 65_532, 0)
    );
}

#[test]
fn range_of_a_node_outside_the_list() {
    let node = Node {
        draws: 0..2,
        layer: None,
    };
    assert!(panics(|| node.draws_in(&[1])));
    assert_eq!(node.draws_in(&[1, 2, 3]), &[1, 2]);
}
