mod build;
mod cases;
mod mending;
mod order;
mod random;
mod refusals;
mod sets;
