//! Ours: stands for the original's module `tuning`, of which pitch.rs names two
//! types in `Pitched::find_in_tuning`. Layouts never reach them.

use crate::pitch::Pitch;
use crate::pitch::Ratio;

/// A key or note near a pitch, and how far the pitch lies from it.
pub struct Approximation<K> {
    pub approx_value: K,
    pub deviation: Ratio,
}

/// A tuning that can be searched for a pitch.
pub trait Tuning<K> {
    fn find_by_pitch(&self, pitch: Pitch) -> Approximation<K>;
}
