//! Properties of the product beside the library: the codec and the keeper call
//! by call through the C boundary, both ends through `replay`, and demand 3 on
//! the product's own traces. Whatever fails is shrunk.

pub mod bearer;
#[cfg(feature = "product")]
pub mod codec;
pub mod frames;
#[cfg(feature = "product")]
pub mod keeper;
pub mod marks;
pub mod replay;
pub mod rested;
pub mod scripts;
pub mod sizes;
pub mod suite;
pub mod trace;
