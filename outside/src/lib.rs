//! The C entries of the handover checker beside the plain version: random inputs, every answer and every lent word
//! compared.

pub mod arrays;
pub mod balanced;
pub mod changes;
pub mod claims;
pub mod damage;
pub mod disorder;
pub mod files;
pub mod guarded;
pub mod lists;
pub mod many_senders;
pub mod mended;
pub mod order;
pub mod packed;
pub mod parts;
pub mod random;
pub mod run;
pub mod sets;
pub mod tables;
pub mod tally;
pub mod tangled;
pub mod thinned;
pub mod together;
pub mod travels;
pub mod view;
pub mod watch;
