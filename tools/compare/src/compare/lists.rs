//! All short lists of calls over a few calls.

use crate::make::Options;

/// A few calls, all lists of which are tried.
pub struct Alphabet {
    pub name: &'static str,
    /// The lines before the first call.
    head: &'static str,
    /// What empties the recorder before each list.
    reset: &'static str,
    calls: &'static [&'static str],
    /// The columns and rows whose tile lists are asked for.
    tiles: &'static [&'static str],
}

/// Each has an eye on something of its own.
pub const ALPHABETS: [Alphabet; 4] = [
    Alphabet {
        name: "layers",
        head: "",
        reset: "reset 30 30",
        calls: &[
            "fill 0 0 8 8",
            "fill 6 6 14 18 mode 1 3",
            "open",
            "open mode 1 3 clip 4 4 12 12",
            "open filter 7 pad 4 4 4 4 source 8 4 0 0",
            "close",
            "fill 9 2 9 30",
            "reset 5 3",
        ],
        tiles: &["0 0", "1 1", "2 1", "3 3"],
    },
    Alphabet {
        name: "edge",
        head: "",
        reset: "reset 65532 65531",
        calls: &[
            "fill 65524 65520 65528 65528",
            "fill 65528 0 65532 4",
            "fill 0 0 65532 65532",
            "open clip 65528 0 65532 65532",
            "open filter 1 pad 0 5 4 4 source 65528 0 0 0",
            "open filter 2 pad 65535 0 5 0 source 0 65532 0 0",
            "close",
            "fill 65533 0 65532 65535",
        ],
        tiles: &["16382 0", "16381 16380", "0 0", "16383 0"],
    },
    Alphabet {
        name: "runs",
        head: "kind run\nstrip 2 3 7\nstrip 12 8 0\nstrip 8 0 4\nstrip 65530 0 2\nstrip 65530 0 3\nplaces 3\n",
        reset: "reset 0 9",
        calls: &[
            "run 0 1",
            "run 1 2",
            "run 1 4",
            "run 4 9",
            "open",
            "open clip 0 0 8 8",
            "open filter 3 pad 1 1 1 1 source 4 0 0 0",
            "close",
        ],
        tiles: &["0 0", "1 0", "2 0", "16382 0"],
    },
    Alphabet {
        name: "nesting",
        head: "",
        reset: "reset 8 8",
        calls: &[
            "fill 4 4 20 20",
            "open clip 16 0 8 24",
            "open clip 0 0 8 8 filter 9 pad 0 0 0 8 source 12 12 0 0",
            "open opacity 0.5 filter 9 pad 9 9 9 9 source 0 0 0 0",
            "close",
        ],
        tiles: &["0 0", "1 1", "2 2", "4 4"],
    },
];

/// How many lists one script holds: the start of a program is dear.
const LISTS_PER_SCRIPT: u64 = 500;

impl Alphabet {
    /// Scripts that hold all lists of 1 to `length` calls, each from an empty recorder to a report.
    pub fn scripts(&self, length: u32, options: Options) -> impl Iterator<Item = Vec<u8>> + '_ {
        let lists = (1..=length).map(|length| (length, self.count(length)));
        lists.flat_map(move |(length, count)| {
            let firsts = (0..count).step_by(LISTS_PER_SCRIPT as usize);
            firsts.map(move |first| {
                let last = count.min(first + LISTS_PER_SCRIPT);
                self.script(length, first..last, options)
            })
        })
    }

    /// How many lists of this length there are.
    fn count(&self, length: u32) -> u64 {
        (self.calls.len() as u64).pow(length)
    }

    fn script(&self, length: u32, numbers: std::ops::Range<u64>, options: Options) -> Vec<u8> {
        let mut text = String::from(self.head);
        for number in numbers {
            self.add_list(length, number, options, &mut text);
        }
        text.into_bytes()
    }

    /// The list whose calls are the digits of `number`, as it stands and with what it leaves open closed.
    fn add_list(&self, length: u32, number: u64, options: Options, text: &mut String) {
        let mut add = |line: &str| {
            text.push_str(line);
            text.push('\n');
        };
        let calls = self.calls_of(length, number);
        let open = left_open(&calls);
        add(self.reset);
        calls.iter().for_each(|call| add(call));
        if open > 0 {
            add("walk");
            add("report");
        }
        (0..open).for_each(|_| add("close"));
        add("walk");
        add("report");
        if options.tiles {
            for tile in self.tiles {
                add(&format!("tile scene {tile}"));
                add(&format!("tile 0 {tile}"));
                add(&format!("tile 1 {tile}"));
                add(&format!("hit {tile}"));
            }
        }
    }

    fn calls_of(&self, length: u32, number: u64) -> Vec<&'static str> {
        let base = self.calls.len() as u64;
        let digits = (0..length).map(|place| number / base.pow(place) % base);
        digits.map(|digit| self.calls[digit as usize]).collect()
    }
}

/// How many layers a list of calls leaves open, if none of them is refused for anything else than that none is open.
fn left_open(calls: &[&str]) -> usize {
    calls
        .iter()
        .fold(0, |open: usize, call| match call.split(' ').next() {
            Some("open") => open + 1,
            Some("close") => open.saturating_sub(1),
            Some("reset") => 0,
            _ => open,
        })
}
