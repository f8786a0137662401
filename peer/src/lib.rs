//! An independent second implementation of one end of the Jini ERI multiplexing protocol.
//!
//! It rests on five texts alone: those that READINGS.md calls Scope, Changes and Published, and the formats of
//! scripts for a connection (docs/SCRIPTS.md) and for a journal. Its points of doubt, and the readings taken,
//! are in READINGS.md.

pub mod clock;
pub mod compare;
pub mod corners;
pub mod cover;
pub mod crc;
pub mod engine;
pub mod far;
pub mod journal;
pub mod make;
pub mod noise;
pub mod pick;
pub mod play;
pub mod ration;
pub mod refusal;
pub mod rng;
pub mod runner;
pub mod script;
pub mod session;
pub mod shrink;
pub mod wire;
