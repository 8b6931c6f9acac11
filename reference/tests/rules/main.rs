//! What holds the second program to documents 01 and 02.

mod common;
mod compared;
mod definitions;
mod examples;
mod found;
mod kiss2;
mod packing;
mod program;
mod properties;
mod readings;
mod rows;
mod timed;
mod worked_pieces;
