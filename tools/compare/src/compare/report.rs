//! The block that `report` prints, read off the fields of the Rust's recorder.

use crate::draws::Draw;
use old_recorder::geometry::{PaddingU16, RectU16, SizeU16};
use old_recorder::record::{
    CommandRecorder, LayerClip, LayerProps, Node, RecordedLayer, RecordedLayerKind,
};

/// The lines of the block. How many layers are open is not told by the recorder, only whether any is.
pub fn lines(recorder: &CommandRecorder<Draw>, open: usize) -> Vec<String> {
    assert_eq!(recorder.has_layers(), open > 0, "has_layers");
    let mut lines = vec![
        format!("scene {}", size(recorder.scene_size)),
        format!("draws {}", recorder.draws.len()),
        format!("open {open}"),
        format!(
            "flags root_is_blend_target={} has_non_default_blend={}",
            recorder.root_is_blend_target, recorder.has_non_default_blend
        ),
        format!("depth {}", recorder.max_layer_depth),
        format!(
            "largest_layer {}",
            or_none(recorder.largest_layer_size.map(size))
        ),
        format!(
            "largest_filter_layer {}",
            or_none(recorder.largest_filter_layer_size.map(size))
        ),
        format!(
            "filter_layers{}",
            spaced(&recorder.filter_layers, u32::to_string)
        ),
        format!("nodes root{}", spaced(&recorder.nodes, node)),
    ];
    for (number, recorded) in recorder.layers.iter().enumerate() {
        lines.push(layer(number, recorded));
    }
    lines
}

fn layer(number: usize, layer: &RecordedLayer) -> String {
    let LayerProps {
        blend_mode,
        opacity,
        mask,
        clip_path,
    } = &layer.props;
    format!(
        "layer {number} depth {} {} mode {} {} opacity {} mask {} clip {} nodes{}",
        layer.depth,
        kind(layer),
        blend_mode.mix,
        blend_mode.compose,
        opacity.to_bits(),
        or_none(mask.map(|mask| mask.0.to_string())),
        or_none(clip_path.as_ref().map(clip)),
        spaced(&layer.nodes, node)
    )
}

fn kind(layer: &RecordedLayer) -> String {
    let bbox = rect(layer.bbox);
    match &layer.kind {
        RecordedLayerKind::Regular => format!("regular box {bbox}"),
        RecordedLayerKind::Filter {
            filter_data,
            placement,
        } => {
            let (x, y) = placement.src_origin();
            format!(
                "filter {} pad {} source {} box {bbox} dest {} origin {x} {y}",
                filter_data.filter.0,
                padding(filter_data.filter_padding),
                padding(filter_data.source_padding),
                rect(placement.dest_bbox()),
            )
        }
    }
}

fn clip(clip: &LayerClip) -> String {
    let path = &clip.strip_range;
    format!(
        "{} path {} {} {}",
        rect(clip.bbox),
        path.start,
        path.end,
        clip.thread_idx
    )
}

fn node(node: &Node) -> String {
    let draws = format!("{}..{}", node.draws.start, node.draws.end);
    match node.layer {
        Some(layer) => format!("{draws}>{layer}"),
        None => draws,
    }
}

fn rect(rect: RectU16) -> String {
    format!("{} {} {} {}", rect.x0, rect.y0, rect.x1, rect.y1)
}

fn size(size: SizeU16) -> String {
    format!("{} {}", size.width(), size.height())
}

fn padding(padding: PaddingU16) -> String {
    let PaddingU16 {
        left,
        top,
        right,
        bottom,
    } = padding;
    format!("{left} {top} {right} {bottom}")
}

fn or_none(text: Option<String>) -> String {
    text.unwrap_or_else(|| "none".to_string())
}

/// Each item after a space.
fn spaced<T>(items: &[T], text: impl Fn(&T) -> String) -> String {
    items
        .iter()
        .map(|item| format!(" {}", text(item)))
        .collect()
}
