//! What `sheet` has to print for a script, found by making the script's calls on the Rust's recorder.

use crate::draws::Draw;
use crate::refusal::{self, Refusal};
use crate::report;
use crate::script::{Action, Call, FilterPart, Opening, Place, Script, Shape, View};
use crate::tally::Tally;
use crate::walks::{self, Entry};
use old_recorder::filter::FilterData;
use old_recorder::filter_effects::Filter;
use old_recorder::geometry::RectU16;
use old_recorder::kurbo::Affine;
use old_recorder::mask::Mask;
use old_recorder::record::{
    CommandRecorder, Drawable, LayerClip, LayerProps, PoppedLayer, RecordedLayerKind,
};
use std::any::Any;
use std::panic::{self, AssertUnwindSafe};
use std::sync::atomic::{AtomicBool, Ordering};

/// A line that has to be printed.
#[derive(Debug, PartialEq, Eq)]
pub enum Expected {
    Exactly(String),
    /// Any of these will do; there is at least one.
    OneOf(Vec<String>),
    /// The Rust panicked on a call that the rules accept. No line agrees with that.
    Panic(String),
}

impl Expected {
    pub fn allows(&self, line: &str) -> bool {
        match self {
            Self::Exactly(text) => text == line,
            Self::OneOf(texts) => texts.iter().any(|text| text == line),
            Self::Panic(_) => false,
        }
    }

    /// The line, or one of those that will do.
    pub fn text(&self) -> &str {
        match self {
            Self::Exactly(text) | Self::Panic(text) => text,
            Self::OneOf(texts) => &texts[0],
        }
    }
}

/// The lines for a whole script, and which calls they came from.
pub struct Replayed {
    pub lines: Vec<Expected>,
    pub tally: Tally,
}

/// Makes a script's calls in their order, those that the rules refuse left out. Where the Rust panics on a call that
/// the rules accept, a line says so, and the recorder being lost, it is the last.
pub fn replay(script: &Script) -> Replayed {
    let mut sheet = OldSheet::new(script);
    let mut replayed = Replayed {
        lines: Vec::new(),
        tally: Tally::default(),
    };
    for call in &script.calls {
        match catch(|| sheet.make(call)) {
            Ok(answer) => replayed.add(call, answer),
            Err(message) => {
                let line = format!("{} panic {message}", call.line);
                replayed.lines.push(Expected::Panic(line));
                break;
            }
        }
    }
    replayed
}

impl Replayed {
    fn add(&mut self, call: &Call, answer: Result<Answer, Refusal>) {
        let line = call.line;
        self.tally.add(call, answer.as_ref().err().copied());
        match answer {
            Ok(Answer::Line(text)) => self.add_line(line, &text),
            Ok(Answer::Block(texts)) => texts.iter().for_each(|text| self.add_line(line, text)),
            Ok(Answer::OneOf(texts)) => {
                let texts = texts.iter().map(|text| format!("{line} {text}"));
                self.lines.push(Expected::OneOf(texts.collect()));
            }
            Err(refusal) => {
                let (number, sentence) = (refusal.number(), refusal.sentence());
                self.add_line(line, &format!("refused {number} {sentence}"));
            }
        }
    }

    fn add_line(&mut self, line: usize, text: &str) {
        let text = format!("{line} {text}");
        self.lines.push(Expected::Exactly(text));
    }
}

/// What an accepted call prints, without the number of its line.
enum Answer {
    Line(String),
    Block(Vec<String>),
    OneOf(Vec<String>),
}

/// The Rust's recorder, and what a script gives beside its calls.
struct OldSheet<'a> {
    script: &'a Script,
    recorder: CommandRecorder<Draw>,
    /// The open layers, the innermost last. The recorder's own stack is hidden.
    open: Vec<u32>,
}

impl<'a> OldSheet<'a> {
    fn new(script: &'a Script) -> Self {
        Self {
            script,
            recorder: CommandRecorder::default(),
            open: Vec::new(),
        }
    }

    fn make(&mut self, call: &Call) -> Result<Answer, Refusal> {
        match &call.action {
            Action::Reset { width, height } => self.reset(*width, *height),
            Action::Draw(shape) => self.draw(call.line, *shape),
            Action::Open(opening) => self.open(opening),
            Action::Close => self.close(),
            Action::Walk { room } => self.walk(*room),
            Action::Tile { view, room } => self.tile(*view, *room),
            Action::Hit(place) => self.hit(*place),
            Action::Report => Ok(Answer::Block(report::lines(
                &self.recorder,
                self.open.len(),
            ))),
        }
    }

    fn reset(&mut self, width: u16, height: u16) -> Result<Answer, Refusal> {
        refusal::reset(width, height)?;
        self.recorder.reset(width, height);
        self.open.clear();
        let scene = self.recorder.scene_size;
        let (width, height) = (scene.width(), scene.height());
        Ok(Answer::Line(format!("reset {width} {height}")))
    }

    fn draw(&mut self, line: usize, shape: Shape) -> Result<Answer, Refusal> {
        if let Shape::Fill { rect, .. } = shape {
            refusal::fill(rect)?;
        }
        let number = self.recorder.draws.len();
        refusal::draw(number, self.script.places)?;
        let draw = Draw { line, shape };
        self.recorder.push_draw(draw, &self.script.strips);
        Ok(Answer::Line(format!("draw {number}")))
    }

    fn open(&mut self, opening: &Opening) -> Result<Answer, Refusal> {
        let number = self.recorder.layers.len();
        refusal::open(number, opening)?;
        self.recorder
            .push_layer(layer_props(opening), opening.filter.map(filter_data));
        self.open.push(number as u32);
        Ok(Answer::Line(format!("enter {number}")))
    }

    fn close(&mut self) -> Result<Answer, Refusal> {
        let innermost = self.open.last().copied();
        refusal::close(innermost.map(|number| (self.filter_of(number), self.contents(number))))?;
        let kind = match self.recorder.pop_layer() {
            PoppedLayer::Regular => "regular",
            PoppedLayer::Filter => "filter",
        };
        self.open.pop();
        let number = innermost.expect("a closing without an open layer is refused");
        Ok(Answer::Line(format!("leave {number} {kind}")))
    }

    fn walk(&self, room: Option<u32>) -> Result<Answer, Refusal> {
        refusal::walk(self.open.len())?;
        let list = walks::full_walk(&self.recorder);
        refusal::output(list.len(), room)?;
        Ok(Answer::Line(format!("walk {}", listed(&list))))
    }

    fn tile(&self, view: View, room: Option<u32>) -> Result<Answer, Refusal> {
        refusal::walk(self.open.len())?;
        let nodes = walks::surface_nodes(&self.recorder, view.surface);
        refusal::surface(nodes.is_some())?;
        refusal::place(view.place)?;
        let nodes = nodes.unwrap_or_default();
        let list = walks::tile_list(&self.recorder, &self.script.strips, nodes, view.place);
        refusal::output(list.len(), room)?;
        let View { surface, place } = view;
        Ok(Answer::Line(format!(
            "tile {surface} {place} {}",
            listed(&list)
        )))
    }

    /// Any draw of the scene's tile list is a right answer.
    fn hit(&self, place: Place) -> Result<Answer, Refusal> {
        refusal::walk(self.open.len())?;
        refusal::place(place)?;
        let (recorder, strips) = (&self.recorder, &self.script.strips);
        let list = walks::tile_list(recorder, strips, &recorder.nodes, place);
        let hits: Vec<String> = list
            .into_iter()
            .filter_map(|entry| match entry {
                Entry::Draw(number) => Some(number),
                _ => None,
            })
            .map(|number| {
                let line = recorder.draws[number as usize].line;
                format!("hit {place} Draw {number} line {line}")
            })
            .collect();
        Ok(match hits.is_empty() {
            true => Answer::Line(format!("hit {place} none")),
            false => Answer::OneOf(hits),
        })
    }

    fn filter_of(&self, number: u32) -> Option<FilterPart> {
        match &self.recorder.layers[number as usize].kind {
            RecordedLayerKind::Regular => None,
            RecordedLayerKind::Filter { filter_data, .. } => Some(FilterPart {
                number: filter_data.filter.0,
                padding: filter_data.filter_padding,
                source: filter_data.source_padding,
            }),
        }
    }

    /// The contents box of the innermost layer, put together anew from its draws and the closed layers in it: the
    /// recorder's own is hidden.
    fn contents(&self, number: u32) -> Option<RectU16> {
        let mut contents = None;
        for node in &*self.recorder.layers[number as usize].nodes {
            for draw in node.draws_in(&self.recorder.draws) {
                contents = joined(contents, draw.bbox(&self.script.strips));
            }
            if let Some(layer) = node.layer {
                contents = joined(contents, Some(self.box_in_parent(layer)));
            }
        }
        contents
    }

    /// What a closed layer puts into the layer around it.
    fn box_in_parent(&self, number: u32) -> RectU16 {
        let layer = &self.recorder.layers[number as usize];
        match &layer.kind {
            RecordedLayerKind::Regular => layer.bbox,
            RecordedLayerKind::Filter { placement, .. } => placement.dest_bbox(),
        }
    }
}

/// The smallest box around both; an absent or empty one adds nothing.
fn joined(contents: Option<RectU16>, added: Option<RectU16>) -> Option<RectU16> {
    let Some(added) = added.filter(|bbox| bbox.x0 < bbox.x1 && bbox.y0 < bbox.y1) else {
        return contents;
    };
    let all = contents.unwrap_or(added);
    Some(RectU16 {
        x0: all.x0.min(added.x0),
        y0: all.y0.min(added.y0),
        x1: all.x1.max(added.x1),
        y1: all.y1.max(added.y1),
    })
}

fn layer_props(opening: &Opening) -> LayerProps {
    LayerProps {
        blend_mode: opening.mode,
        opacity: opening.opacity,
        mask: opening.mask.map(Mask),
        clip_path: opening.clip.map(|clip| LayerClip {
            strip_range: clip.start as usize..clip.end as usize,
            thread_idx: clip.thread,
            bbox: clip.bbox,
        }),
    }
}

fn filter_data(filter: FilterPart) -> FilterData {
    FilterData {
        filter: Filter(filter.number),
        transform: Affine,
        filter_padding: filter.padding,
        source_padding: filter.source,
    }
}

/// The count of a list and its entries.
fn listed(list: &[Entry]) -> String {
    let entries: Vec<String> = list.iter().map(Entry::to_string).collect();
    let separator = if list.is_empty() { "" } else { " " };
    format!("{}:{separator}{}", list.len(), entries.join(", "))
}

/// Whether a panic is awaited, so that nothing need be printed of it.
static AWAITED: AtomicBool = AtomicBool::new(false);

/// Keeps panics that `catch` awaits off the screen.
pub fn keep_caught_panics_quiet() {
    let loud = panic::take_hook();
    panic::set_hook(Box::new(move |info| {
        if !AWAITED.load(Ordering::Relaxed) {
            loud(info);
        }
    }));
}

/// The result of `work`, or the message with which it panicked.
fn catch<T>(work: impl FnOnce() -> T) -> Result<T, String> {
    AWAITED.store(true, Ordering::Relaxed);
    let result = panic::catch_unwind(AssertUnwindSafe(work));
    AWAITED.store(false, Ordering::Relaxed);
    result.map_err(|payload| message(&*payload))
}

fn message(payload: &(dyn Any + Send)) -> String {
    let text = payload.downcast_ref::<String>().map(String::as_str);
    let text = text.or_else(|| payload.downcast_ref::<&str>().copied());
    text.unwrap_or("without a message").to_string()
}
