//! Lists in the order of the chain and in the order of keys.
//!
//! The original has neither call. The cycles and degrees of its keys tell their order along
//! the chain; a list is put in that order as it is.

use judge::layouts;
use reading::Outcome;
use reading::orders;
use vetchnoon::Layout;
use vetchnoon::Refused;

use crate::classes;
use crate::question::Call;
use crate::question::Question;
use crate::subjects::layouts::GivenLayout;
use crate::tally::Original;
use crate::tally::Tally;

/// The question whether either list is shorter than the octave.
const TOO_SHORT: u8 = 10;

/// How much room is lent where a layout is refused, whatever its octave.
const SOME_ROOM: usize = 3;

/// A call of the library on a list.
type Reordering = fn(Layout, &[u16], &mut [u16]) -> Result<usize, Refused>;

/// Either of the two calls, and what it does by the reading, given where each key goes, and
/// by the original, given its keys along the chain.
struct Way {
    call: Call,
    library: Reordering,
    reading: fn(&[usize], &[u16]) -> Vec<u16>,
    original: fn(&[u16], &[u16]) -> Vec<u16>,
}

const TO_CHAIN: Way = Way {
    call: Call::ToChainOrder,
    library: vetchnoon::to_chain_order,
    reading: orders::along,
    original: layouts::in_chain_order,
};

const TO_KEYS: Way = Way {
    call: Call::ToKeyOrder,
    library: vetchnoon::to_key_order,
    reading: orders::back,
    original: layouts::in_key_order,
};

/// A layout with the order of its keys, by the reading and by the original.
pub struct Orders<'a> {
    layout: &'a GivenLayout,
    places: Outcome<Vec<usize>>,
    along: Original<Vec<u16>>,
}

impl<'a> Orders<'a> {
    pub fn of(layout: &'a GivenLayout) -> Self {
        Self {
            layout,
            places: layout.read(orders::places),
            along: layout
                .original
                .then(|layout| Original::of(layouts::keys_along_chain(layout))),
        }
    }

    /// A list of any length in either order, and what comes of it put back: the list itself,
    /// as far as the octave goes.
    pub fn compare(&self, tally: &mut Tally, list: &[u16]) {
        for (there, back) in [(TO_CHAIN, TO_KEYS), (TO_KEYS, TO_CHAIN)] {
            let ordered = self.read(&there, list);
            self.compare_way(tally, &there, list, ordered.clone());
            if let Ok(ordered) = ordered {
                let restored = list[..ordered.len()].to_vec();
                self.compare_way(tally, &back, &ordered, Ok(restored));
            }
        }
    }

    fn read(&self, way: &Way, list: &[u16]) -> Outcome<Vec<u16>> {
        let places = self.places.as_ref().map_err(|number| *number)?;
        self.layout
            .read(|layout| orders::holds_octave(layout, list))??;
        Ok((way.reading)(places, list))
    }

    fn compare_way(&self, tally: &mut Tally, way: &Way, list: &[u16], reading: Outcome<Vec<u16>>) {
        let given = self.layout.arguments.into_iter();
        let arguments: Vec<i64> = given
            .chain(list.iter().map(|entry| (*entry).into()))
            .collect();
        let question = Question {
            call: way.call,
            arguments: &arguments,
        };
        let original = match reading {
            // The original has no question about a list.
            Err(TOO_SHORT) => Original::Silent,
            _ => self
                .along
                .then(|along| Original::Answered((way.original)(along, list))),
        };
        let room = self.places.as_ref().map_or(SOME_ROOM, Vec::len);
        let class = self.layout.class(classes::of_layout_book);
        tally.compare_filling_in_room(question, room, reading, original, class, |out| {
            (way.library)(self.layout.given, list, out)
        });
    }
}
