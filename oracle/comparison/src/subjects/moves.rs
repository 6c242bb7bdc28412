//! Moves on the board, of a layout's pattern and of all patterns of a walk.
//!
//! The original has none. The counts and steps of its patterns leave one table of moves for
//! each, and it must be what the reading goes to from the genesis.

use judge::layouts;
use judge::patterns;
use reading::moves;
use vetchnoon::owned;

use crate::classes::Class;
use crate::question::Call;
use crate::question::Question;
use crate::raw;
use crate::subjects::layouts::GivenLayout;
use crate::tally::Original;
use crate::tally::Tally;

impl GivenLayout {
    pub fn compare_moves(&self, tally: &mut Tally) {
        let reading = self.read(|layout| moves::of_layout(layout).numbers().to_vec());
        let original = self.original.then(|layout| {
            let moves = layouts::moves(layout).map(|moves| moves.to_vec());
            whole(moves)
        });
        let question = Question {
            call: Call::Moves,
            arguments: &self.arguments,
        };
        let packaged = vetchnoon::moves(self.given).map(|moves| numbers(moves).to_vec());
        tally.compare_packaged(question, &reading, packaged);
        let call = |out: &mut [i32]| raw::moves(self.given, out);
        tally.compare_filling(question, reading, original, self.class(|_| None), call);
    }
}

/// The moves of every pattern on the walk from a genesis.
pub fn of_walk(tally: &mut Tally, period: u16, generator: u16) {
    let question = Question {
        call: Call::WalkMoves,
        arguments: &[period, generator].map(i64::from),
    };
    let genesis = patterns::create_genesis(period, generator);
    let original = Original::of(genesis.and_then(patterns::children)).then(|walk| {
        let moves = walk
            .iter()
            .map(|mos| patterns::moves(*mos, period, generator));
        let moves: Option<Vec<[i32; 4]>> = moves.collect();
        whole(moves.map(|moves| moves.concat()))
    });
    let class = (period == 0).then_some(Class::GenesisOfPeriodZero);
    let reading = moves::of_walk(period, generator);
    let packaged = owned::walk_moves(period, generator);
    let packaged = packaged.map(|walk| walk.into_iter().flat_map(numbers).collect());
    tally.compare_packaged(question, &reading, packaged);
    let call = |out: &mut [i32]| raw::walk_moves(period, generator, out);
    tally.compare_filling(question, reading, original, class, call);
}

/// Octaves and generators of the primary move, then of the secondary one.
fn numbers(moves: vetchnoon::Moves) -> [i32; 4] {
    let vetchnoon::Moves { primary, secondary } = moves;
    [
        primary.octaves,
        primary.generators,
        secondary.octaves,
        secondary.generators,
    ]
}

/// What the original's patterns leave.
fn whole(moves: Option<Vec<i32>>) -> Original<Vec<i32>> {
    match moves {
        Some(moves) => Original::Answered(moves),
        None => Original::Failed("steps that no whole octaves are left of".to_owned()),
    }
}
