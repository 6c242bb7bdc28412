//! The questions on books, and those with short slices.
//!
//! Refusals 10 to 13 are met here: rooms one too short, and books that are damaged
//! in every way that document 01 tells from a book.

use reading::layers;
use reading::patterns::Pattern;

use crate::keys::MANY_CYCLES;
use crate::list::layout;
use crate::questions::Layout;
use crate::questions::OfLayout;
use crate::questions::OfPattern;
use crate::questions::Question;
use crate::random::Random;

/// Of each chain a small book, in which every key is looked up, a larger one and a
/// large one; that of code 2 is longer than the usual room.
const BOOKS: [[(u16, u16, u16); 3]; 6] = [
    [(0, 9, 14), (0, 16, 25), (0, 311, 480)],
    [(1, 12, 19), (1, 24, 38), (1, 311, 493)],
    [(2, 5, 8), (2, 7, 8), (2, 2_400, 3_800)],
    [(3, 8, 13), (3, 15, 24), (3, 301, 476)],
    [(4, 7, 11), (4, 34, 54), (4, 305, 485)],
    [(5, 7, 12), (5, 19, 30), (5, 311, 492)],
];

/// One layout for each refusal 1 to 4.
const REFUSED: [(u16, u16, u16); 4] = [(6, 12, 19), (1, 0, 19), (3, 12, 19), (0, 12, 19)];

pub fn all(random: &mut Random) -> Vec<Question> {
    let mut questions = Vec::new();
    for books in BOOKS {
        let [small, larger, large] = books.map(layout);
        questions.extend([Question::Book(small), Question::Book(larger)]);
        questions.extend([small, larger, large].map(Question::BookLength));
        let beyond = i32::from(small.octave) + 2;
        questions.extend((-2..beyond).map(|key| Question::Find(small, key)));
        for layout in [larger, large] {
            let last = layout.octave - 1;
            let some = [1, random.up_to(last), last, layout.octave, u16::MAX].map(i32::from);
            questions.extend(some.map(|key| Question::Find(layout, key)));
            let none = [i32::MIN, -i32::from(layout.octave), -1, 65_536, i32::MAX];
            questions.extend(none.map(|key| Question::Find(layout, key)));
        }
        questions.extend(rooms(small));
        questions.extend(rooms(larger));
    }
    for refused in REFUSED.map(layout) {
        questions.extend([
            Question::BookLength(refused),
            Question::Book(refused),
            Question::Find(refused, 65_535),
        ]);
        questions.extend(in_no_room(refused));
    }
    // Its book and its table are longer than any room here.
    questions.extend(in_no_room(layout(MANY_CYCLES)));
    questions.push(Question::BookLength(layout((2, 65_534, 65_535))));
    questions.extend(pattern_rooms());
    questions.extend(lookups(random));
    questions
}

// ---- short slices

pub fn in_room(room: usize, question: &Question) -> Question {
    let room = u16::try_from(room).expect("a small room");
    Question::InRoom(room, Box::new(question.clone()))
}

/// Exact, one short, none and one more.
pub fn around(elements: usize, question: &Question) -> Vec<Question> {
    [elements, elements.saturating_sub(1), 0, elements + 1]
        .map(|room| in_room(room, question))
        .into()
}

fn rooms(layout: Layout) -> Vec<Question> {
    let table = Question::Table(layout.to_string());
    let printed = reading::tables::output(format!("{layout}\n").as_bytes()).len();
    [layout_rooms(layout), around(printed, &table)].concat()
}

pub fn layout_rooms(layout: Layout) -> Vec<Question> {
    let read = layout.read().expect("an accepted layout");
    let strip = read.strip().len();
    let keys = i32::from(layout.octave);
    let book = reading::books::book(&read).len();
    let name = reading::names::name(&read, 1).len();
    [
        around(name, &Question::Name(layout, 1)),
        around(strip, &Question::OfLayout(OfLayout::Lamps, layout)),
        around(
            read.layers().len(),
            &Question::OfLayout(OfLayout::KeyLayers, layout),
        ),
        around(book, &Question::Book(layout)),
        around(book, &Question::Find(layout, keys - 1)),
        around(book, &Question::Find(layout, keys)),
        around(book, &Question::Find(layout, -1)),
    ]
    .concat()
}

/// What is refused with another number is so in no room too.
fn in_no_room(layout: Layout) -> Vec<Question> {
    let others = [
        Question::Table(layout.to_string()),
        Question::Chain(layout.code),
    ];
    let mut questions = layout_in_no_room(layout);
    questions.extend(others.map(|question| in_room(0, &question)));
    questions
}

pub fn layout_in_no_room(layout: Layout) -> Vec<Question> {
    [
        Question::Name(layout, 0),
        Question::OfLayout(OfLayout::Lamps, layout),
        Question::OfLayout(OfLayout::KeyLayers, layout),
        Question::Book(layout),
        Question::Find(layout, 65_535),
        Question::Find(layout, -1),
    ]
    .map(|question| in_room(0, &question))
    .into()
}

fn pattern_rooms() -> Vec<Question> {
    let pattern = [5, 2, 5, 3];
    let read = Pattern::given(pattern).expect("an accepted pattern");
    // A pattern is four numbers, and a walk begins with the pattern itself.
    [
        (OfPattern::Children, 4 * read.children().count()),
        (OfPattern::Parents, 4 * read.parents().count()),
        (OfPattern::LayerSizes, layers::sizes(read).len()),
        (OfPattern::Layers, layers::numbers(read).len()),
    ]
    .map(|(asked, elements)| around(elements, &Question::OfPattern(asked, pattern)))
    .concat()
}

// ---- lookups in bytes

/// A book taken apart, so that each part can be damaged.
#[derive(Clone)]
struct Parts {
    count: u32,
    pairs: Vec<[u32; 2]>,
    text: Vec<u8>,
}

const OFFSET: usize = 0;
const LENGTH: usize = 1;

impl Parts {
    fn of(names: &[&str]) -> Self {
        let count = names.len() as u32;
        let mut offset = 4 + 8 * count;
        let mut pairs = Vec::new();
        for name in names {
            let length = name.len() as u32;
            pairs.push([offset, length]);
            offset += length;
        }
        let text = names.concat().into_bytes();
        Self { count, pairs, text }
    }

    fn bytes(&self) -> Vec<u8> {
        let pairs = self.pairs.iter().flatten();
        let mut bytes: Vec<u8> = std::iter::once(&self.count)
            .chain(pairs)
            .flat_map(|number| number.to_le_bytes())
            .collect();
        bytes.extend(&self.text);
        bytes
    }

    fn changed(&self, change: impl Fn(&mut Self)) -> Vec<u8> {
        let mut parts = self.clone();
        change(&mut parts);
        parts.bytes()
    }

    /// Another count: 11 where the bytes hold fewer pairs, else 12.
    fn counts(&self) -> Vec<Vec<u8>> {
        [
            0,
            self.count - 1,
            self.count + 1,
            self.count.swap_bytes(),
            // In 32 bits, 8 times this is 0.
            1 << 29,
            u32::MAX,
        ]
        .map(|count| self.changed(|book| book.count = count))
        .into()
    }

    /// A beginning of the book, or bytes more than there should be.
    fn cut_and_extended(&self) -> Vec<Vec<u8>> {
        let bytes = self.bytes();
        let text = bytes.len() - self.text.len();
        let mut cut: Vec<Vec<u8>> = [0, 3, 4, text - 1, text, bytes.len() - 1]
            .map(|length| bytes[..length].to_vec())
            .into();
        cut.push([&bytes[..], b"#"].concat());
        cut
    }

    /// Another offset or length of one key.
    fn numbers(&self, key: usize) -> Vec<Vec<u8>> {
        let mut changed = Vec::new();
        for part in [OFFSET, LENGTH] {
            let was = self.pairs[key][part];
            for number in [0, was - 1, was + 1, was ^ 1 << 31, u32::MAX] {
                changed.push(self.changed(|book| book.pairs[key][part] = number));
            }
        }
        changed
    }

    /// Between a key and the next: a gap, an overlap, and the border moved, by one
    /// byte and by so many that the ends fit only where sums wrap in 32 bits.
    fn borders(&self, key: usize) -> Vec<Vec<u8>> {
        let shift = |book: &mut Self, by: u32| {
            for pair in &mut book.pairs[key + 1..] {
                pair[OFFSET] = pair[OFFSET].wrapping_add(by);
            }
        };
        let moved = |by: u32| {
            self.changed(|book| {
                book.pairs[key][LENGTH] = book.pairs[key][LENGTH].wrapping_add(by);
                let next = &mut book.pairs[key + 1];
                next[OFFSET] = next[OFFSET].wrapping_add(by);
                next[LENGTH] = next[LENGTH].wrapping_sub(by);
            })
        };
        let gap = self.changed(|book| {
            shift(book, 1);
            book.text.push(b'#');
        });
        let overlap = self.changed(|book| {
            shift(book, u32::MAX);
            book.text.pop();
        });
        vec![gap, overlap, moved(1), moved(u32::MAX), moved(1 << 31)]
    }
}

fn lookups(random: &mut Random) -> Vec<Question> {
    let books = [
        Parts::of(&["D"]),
        Parts::of(&["Eb", "D#"]),
        Parts::of(&["D", "A+/C-", "E", "βb*", "φ"]),
    ];
    let mut questions = Vec::new();
    for book in books {
        for key in [0, 1, 2, 4, 5, 256, i32::MAX, -1, -2, -256, i32::MIN] {
            questions.push(Question::FindIn(key, book.bytes()));
        }
        let mut damaged = [book.counts(), book.cut_and_extended(), book.numbers(0)].concat();
        if 1 < book.pairs.len() {
            damaged.extend(book.numbers(book.pairs.len() - 1));
            damaged.extend(book.borders(0));
        }
        for bytes in damaged {
            questions.extend([0, 1, 5, -1].map(|key| Question::FindIn(key, bytes.clone())));
        }
    }
    questions.extend(any_bytes(random));
    questions
}

/// Random bytes; and small numbers, which come closer to a book.
fn any_bytes(random: &mut Random) -> Vec<Question> {
    let mut questions = Vec::new();
    for _ in 0..30 {
        let length = random.up_to(40);
        let bytes: Vec<u8> = (0..length).map(|_| random.up_to(255) as u8).collect();
        let small = |(place, byte): (usize, &u8)| if place % 4 == 0 { byte % 3 } else { 0 };
        let near = bytes.iter().enumerate().map(small).collect();
        questions.extend([Question::FindIn(0, bytes), Question::FindIn(0, near)]);
    }
    questions
}

#[cfg(test)]
mod tests {
    use super::*;
    use reading::books;

    #[test]
    fn parts_are_laid_down_as_document_01_says() {
        let names = ["D", "Eb", "βb*"];
        assert_eq!(
            Parts::of(&names).bytes(),
            books::of_names(&names.map(str::to_owned))
        );
    }
}
