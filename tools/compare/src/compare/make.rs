//! Scripts by chance, from a seed.

use crate::floats;
use crate::random::Random;
use crate::refusal;
use crate::script::{self, Action, Shape};
use crate::spoil;

/// Numbers at and around the limits of what has 16 bits.
const EDGES: [u64; 24] = [
    0, 1, 2, 3, 4, 5, 7, 8, 255, 256, 32_767, 32_768, 65_519, 65_520, 65_526, 65_527, 65_528,
    65_529, 65_530, 65_531, 65_532, 65_533, 65_534, 65_535,
];
const MODES: [(u64, u64); 6] = [(0, 3), (0, 3), (1, 3), (0, 0), (3, 0), (255, 255)];
const COLUMNS: [u64; 7] = [0, 1, 8, 16_381, 16_382, 16_383, 65_535];
const WIDE: [u64; 8] = [
    0,
    1,
    2,
    65_535,
    65_536,
    1_048_576,
    4_294_967_294,
    4_294_967_295,
];
const MOST_DRAWS: u64 = 1_048_576;

/// What a set of scripts is to have.
#[derive(Clone, Copy)]
pub struct Options {
    /// Lines `tile` and `hit`.
    pub tiles: bool,
    /// Scripts of one family; of all, where it is absent.
    pub family: Option<Family>,
}

/// What a script is about.
#[derive(Clone, Copy, PartialEq, Eq)]
pub enum Family {
    /// Small numbers, so that boxes, clips and tiles overlap.
    Small,
    /// Numbers at the limits.
    Limits,
    /// As deep a nesting as there are layers, and deeper.
    Deep,
    /// More layers than fit, one after another.
    Wide,
    /// Fewer places than draws.
    Short,
    /// Opacities in all spellings.
    Opacities,
    /// Lines that are spoilt.
    Faulty,
}

const FAMILIES: [(u64, Family); 7] = [
    (50, Family::Small),
    (22, Family::Limits),
    (6, Family::Deep),
    (6, Family::Wide),
    (6, Family::Short),
    (4, Family::Opacities),
    (6, Family::Faulty),
];

impl Family {
    /// The family that the command line calls by this name.
    pub fn named(name: &str) -> Option<Self> {
        Some(match name {
            "small" => Self::Small,
            "limits" => Self::Limits,
            "deep" => Self::Deep,
            "wide" => Self::Wide,
            "short" => Self::Short,
            "opacities" => Self::Opacities,
            "faulty" => Self::Faulty,
            _ => return None,
        })
    }
}

/// The script with this index of those with this seed.
pub fn script(seed: u64, index: u64, options: Options) -> Vec<u8> {
    let mut random = Random::new(seed, index);
    let chosen = random.weighted(&FAMILIES);
    let family = options.family.unwrap_or(chosen);
    let mut maker = Maker::new(random, family, options);
    maker.head();
    maker.body();
    maker.end();
    if family == Family::Faulty {
        spoil::spoil(&mut maker.random, maker.text.into_bytes())
    } else {
        maker.text.into_bytes()
    }
}

/// One draw more than a recorder takes, in a layer that has been opened for them.
pub fn many_draws() -> Vec<u8> {
    let mut text = format!("places {}\nreset 8 8\nopen\n", MOST_DRAWS + 2);
    for draw in 0..=MOST_DRAWS {
        let x = 4 * (draw % 16_000);
        text.push_str(&format!("fill {x} 0 {} 8\n", x + 3));
    }
    text.push_str(
        "close\nfill 0 0 4 4\nwalk room 1048577\nwalk\nreport\nreset 1 1\nfill 0 0 4 4\nreport\n",
    );
    text.into_bytes()
}

/// What the next line does.
#[derive(Clone, Copy)]
enum Step {
    Draw,
    Open,
    Close,
    Reset,
    Walk,
    Report,
    Tile,
    Hit,
    Remark,
}

struct Maker {
    random: Random,
    family: Family,
    options: Options,
    text: String,
    /// Whether the sheet holds runs.
    runs: bool,
    strips: u64,
    /// Whether lines are written in odd ways that mean the same.
    ragged: bool,
    /// What is recorded so far; places in the draw list and refused closings are not thought of.
    draws: u64,
    layers: u64,
    open: u64,
    /// The numbers of the layers with a filter.
    filters: Vec<u64>,
}

impl Maker {
    fn new(mut random: Random, family: Family, options: Options) -> Self {
        Self {
            runs: random.percent(35),
            ragged: random.percent(15),
            random,
            family,
            options,
            text: String::new(),
            strips: 0,
            draws: 0,
            layers: 0,
            open: 0,
            filters: Vec::new(),
        }
    }

    /// The lines before the first call.
    fn head(&mut self) {
        if self.runs {
            self.line("kind run");
        } else if self.random.percent(30) {
            self.line("kind fill");
        }
        let places_first = self.random.percent(50);
        if places_first {
            self.places();
        }
        if self.runs || self.random.percent(10) {
            self.strips = self.random.below(30);
        }
        for _ in 0..self.strips {
            let (x, y) = (self.edge(), self.edge());
            let width = if self.random.percent(70) {
                self.random.below(12)
            } else {
                self.edge()
            };
            self.line(&format!("strip {x} {y} {width}"));
        }
        if !places_first {
            self.places();
        }
        if self.random.percent(70) {
            self.reset();
        }
    }

    fn places(&mut self) {
        if self.family == Family::Short {
            let places = self.random.below(40);
            self.line(&format!("places {places}"));
        } else if self.random.percent(10) {
            let places = self.random.pick(&[1_000, 65_536, 2_000_000]);
            self.line(&format!("places {places}"));
        }
    }

    fn body(&mut self) {
        match self.family {
            Family::Deep => self.nested(),
            Family::Wide => self.side_by_side(),
            Family::Opacities => self.opacities(),
            Family::Faulty => self.steps(40),
            Family::Small | Family::Limits | Family::Short => {
                let most = self.random.pick(&[20, 100, 400, 800]);
                self.steps(most);
            }
        }
    }

    /// Closes what is open, or not, and shows what was recorded.
    fn end(&mut self) {
        if self.random.percent(80) {
            for _ in 0..=self.open {
                self.close();
            }
        }
        self.line("walk");
        self.line("report");
        if self.options.tiles {
            for _ in 0..self.random.below(40) {
                self.tile();
                self.hit();
            }
        }
    }

    fn steps(&mut self, most: u64) {
        for _ in 0..self.random.between(1, most) {
            self.step();
        }
    }

    fn step(&mut self) {
        let limits = self.family == Family::Limits;
        let tiles = if self.options.tiles { 5 } else { 0 };
        let step = self.random.weighted(&[
            (40, Step::Draw),
            (16, Step::Open),
            (if self.open == 0 { 2 } else { 18 }, Step::Close),
            (if limits { 5 } else { 1 }, Step::Reset),
            (3, Step::Walk),
            (2, Step::Report),
            (tiles, Step::Tile),
            (tiles, Step::Hit),
            (if self.ragged { 5 } else { 0 }, Step::Remark),
        ]);
        self.make(step);
    }

    fn make(&mut self, step: Step) {
        match step {
            Step::Draw => self.draw(),
            Step::Open => self.open(),
            Step::Close => self.close(),
            Step::Reset => self.reset(),
            Step::Walk => self.walk(),
            Step::Report => self.line("report"),
            Step::Tile => self.tile(),
            Step::Hit => self.hit(),
            Step::Remark => {
                let remark =
                    self.random
                        .pick(&["", "# a remark", "#", "#kind run", "  ", "# für 3 €"]);
                self.text.push_str(remark);
                self.text.push('\n');
            }
        }
    }

    /// A chain of open layers, with draws and closings here and there, and then all of them closed.
    fn nested(&mut self) {
        let depth = self.random.pick(&[30, 200, 255, 256, 257, 270]);
        let draws = self.random.below(60);
        let closings = self.random.below(15);
        for _ in 0..depth {
            self.open();
            if self.random.percent(draws) {
                self.draw();
            }
            if self.random.percent(closings) {
                self.close();
            }
        }
        if self.random.percent(30) {
            self.line("report");
        }
        while self.open > 0 {
            self.close();
            if self.random.percent(draws / 2) {
                self.draw();
            }
        }
        if self.random.percent(30) {
            self.reset();
            self.steps(100);
        }
    }

    /// Many layers of a few draws each, in the root or in one layer.
    fn side_by_side(&mut self) {
        if self.random.percent(50) {
            self.open();
        }
        let count = self.random.pick(&[100, 255, 256, 257, 300]);
        for _ in 0..count {
            self.open();
            for _ in 0..self.random.below(3) {
                self.draw();
            }
            self.close();
            if self.random.percent(30) {
                self.draw();
            }
        }
        if self.random.percent(30) {
            self.reset();
            self.steps(100);
        }
    }

    fn opacities(&mut self) {
        for _ in 0..self.random.between(50, 240) {
            let opacity = floats::opacity(&mut self.random);
            let line = format!("open opacity {opacity}");
            self.line(&line);
            self.count(&line);
            if self.random.percent(60) {
                self.close();
            }
        }
    }

    fn reset(&mut self) {
        let (width, height) = match self.family {
            Family::Limits => (self.edge(), self.edge()),
            _ => (self.random.below(80), self.random.below(80)),
        };
        self.line(&format!("reset {width} {height}"));
        self.draws = 0;
        self.layers = 0;
        self.open = 0;
        self.filters.clear();
    }

    fn draw(&mut self) {
        if self.runs {
            self.run();
        } else {
            self.fill();
        }
    }

    fn fill(&mut self) {
        let rect = self.rect();
        let mode = if self.random.percent(15) {
            self.mode()
        } else {
            String::new()
        };
        let line = format!("fill {rect}{mode}");
        self.line(&line);
        self.count(&line);
    }

    fn run(&mut self) {
        let start = self.random.below(self.strips + 2);
        let end = match self.random.below(20) {
            0 => self.random.pick(&WIDE),
            1 => self.random.below(self.strips + 2),
            _ => start + self.random.below(5),
        };
        self.line(&format!("run {start} {end}"));
        self.draws += 1;
    }

    /// Keeps count of what a line records, where the rules accept it.
    fn count(&mut self, line: &str) {
        let calls = script::read(line.as_bytes()).map_or(Vec::new(), |script| script.calls);
        for call in calls {
            match call.action {
                Action::Draw(Shape::Fill { rect, .. }) if refusal::fill(rect).is_ok() => {
                    self.draws += 1;
                }
                Action::Open(opening) if refusal::open(self.layers as usize, &opening).is_ok() => {
                    if opening.filter.is_some() {
                        self.filters.push(self.layers);
                    }
                    self.layers += 1;
                    self.open += 1;
                }
                _ => {}
            }
        }
    }

    fn open(&mut self) {
        let mut line = String::from("open");
        if self.random.percent(25) {
            line += &self.mode();
        }
        if self.random.percent(25) {
            let opacity = self.opacity();
            line += &format!(" opacity {opacity}");
        }
        if self.random.percent(10) {
            let mask = self.random.pick(&WIDE);
            line += &format!(" mask {mask}");
        }
        if self.random.percent(35) {
            line += &self.clip();
        }
        if self.random.percent(30) {
            line += &self.filter();
        }
        self.line(&line);
        self.count(&line);
    }

    fn close(&mut self) {
        self.line("close");
        self.open = self.open.saturating_sub(1);
    }

    fn walk(&mut self) {
        let entries = self.draws + 2 * self.layers;
        let room = self.room(entries);
        self.line(&format!("walk{room}"));
    }

    fn tile(&mut self) {
        let surface = match self.random.below(10) {
            0 => self.random.below(self.layers + 2).to_string(),
            1..=4 if !self.filters.is_empty() => self.random.pick(&self.filters).to_string(),
            _ => "scene".to_string(),
        };
        let place = self.place();
        let entries = self.random.below(10);
        let room = self.room(entries);
        self.line(&format!("tile {surface} {place}{room}"));
    }

    fn hit(&mut self) {
        let place = self.place();
        self.line(&format!("hit {place}"));
    }

    fn place(&mut self) -> String {
        let mut axis = || {
            let far = self
                .random
                .percent(if self.family == Family::Limits { 60 } else { 3 });
            if far {
                self.random.pick(&COLUMNS)
            } else {
                self.random.below(18)
            }
        };
        format!("{} {}", axis(), axis())
    }

    /// Mostly none, or about as many places as there are entries.
    fn room(&mut self, entries: u64) -> String {
        let room = match self.random.below(10) {
            0 => self.random.pick(&WIDE),
            1 => entries.saturating_sub(1),
            2 => entries,
            3 => entries + 1,
            _ => return String::new(),
        };
        format!(" room {}", room.min(2_000_000))
    }

    fn mode(&mut self) -> String {
        let (mix, compose) = self.random.pick(&MODES);
        format!(" mode {mix} {compose}")
    }

    /// Refused ones are rare: they would leave little to be compared.
    fn opacity(&mut self) -> String {
        if self.random.percent(30) {
            floats::plain_opacity(&mut self.random)
        } else {
            self.random
                .pick(&["0", "1", "0.5", "0.3", "-0"])
                .to_string()
        }
    }

    fn clip(&mut self) -> String {
        let rect = if self.random.percent(94) {
            self.rect_on_tiles()
        } else {
            self.rect()
        };
        if self.random.percent(70) {
            return format!(" clip {rect}");
        }
        let (start, end) = (self.random.pick(&WIDE), self.random.pick(&WIDE));
        let thread = self.random.pick(&[0, 1, 7, 255]);
        format!(" clip {rect} path {start} {end} {thread}")
    }

    fn filter(&mut self) -> String {
        let number = self.random.pick(&WIDE);
        let mut padding = || match self.family {
            Family::Limits if self.random.percent(20) => self.edge(),
            _ => self.random.below(14),
        };
        let padding: Vec<String> = (0..4).map(|_| padding().to_string()).collect();
        let source: Vec<String> = (0..4).map(|_| self.shift().to_string()).collect();
        format!(
            " filter {number} pad {} source {}",
            padding.join(" "),
            source.join(" ")
        )
    }

    /// One side of a source padding; left and top have to be multiples of 4.
    fn shift(&mut self) -> u64 {
        match self.random.below(100) {
            0..=1 => self.random.below(40),
            2..=3 => self.random.pick(&EDGES),
            4..=60 => 4 * self.random.below(8),
            _ => 0,
        }
    }

    /// Mostly with its low edges below its high ones.
    fn rect(&mut self) -> String {
        let (x0, x1) = (self.edge(), self.edge());
        let (y0, y1) = (self.edge(), self.edge());
        self.corners([x0, y0, x1, y1])
    }

    fn rect_on_tiles(&mut self) -> String {
        let corners = [(); 4].map(|()| self.edge() / 4 * 4);
        self.corners(corners)
    }

    fn corners(&mut self, [x0, y0, x1, y1]: [u64; 4]) -> String {
        if self.random.percent(6) {
            return format!("{x0} {y0} {x1} {y1}");
        }
        let (left, right) = (x0.min(x1), x0.max(x1));
        let (top, bottom) = (y0.min(y1), y0.max(y1));
        format!("{left} {top} {right} {bottom}")
    }

    /// A coordinate.
    fn edge(&mut self) -> u64 {
        match (self.family, self.random.below(100)) {
            (Family::Limits, 0..=49) => self.random.pick(&EDGES),
            (Family::Limits, 50..=54) => self.random.below(65_536),
            (_, 55..=79) => self.random.below(64),
            _ => 4 * self.random.below(17),
        }
    }

    /// One line of the script, which may be written in an odd way.
    fn line(&mut self, line: &str) {
        if !self.ragged {
            self.text.push_str(line);
            self.text.push('\n');
            return;
        }
        for word in line.split(' ') {
            self.text
                .push_str(self.random.pick(&["", "", " ", "\t", " \t "]));
            if word.starts_with(|c: char| c.is_ascii_digit()) && self.random.percent(20) {
                self.text
                    .push_str(self.random.pick(&["0", "00", "000000000000000000000000"]));
            }
            self.text.push_str(word);
            self.text.push(' ');
        }
        self.text
            .push_str(self.random.pick(&["\n", "\r\n", "\t\n"]));
    }
}
