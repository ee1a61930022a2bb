//! The machine of the scope paper once more, in the plainest style: objects and frames are structs with vectors, every call judges the whole
//! state anew. `compare` makes the same calls on it and on the proved library; the refusals say where, for a reader of an image.

pub mod accesses;
pub mod calls;
pub mod climbs;
pub mod code;
pub mod counts;
pub mod image;
pub mod listing;
pub mod machine;
pub mod messages;
pub mod objects;
pub mod play;
pub mod primitives;
pub mod refusal;
pub mod rules;
pub mod words;
#[cfg(test)]
mod worked;
