//! One model of what the papers say: the load, the step, the run, forward and back, the list of
//! presses, the plain walk, the printed walk and the page of opcodes. It is written from the rules
//! and the Java Virtual Machine Specification (JVMS), and nothing in it is taken from crates/, so
//! that one mistake is not made twice.
//!
//! - [`decode`], [`shapes`], [`operations`], [`floats`] and [`step`]: the questions of a step, the 164
//!   instructions, the step and the run; [`returns`]: what a return type asks and narrows; [`handlers`]:
//!   a throw at an offset.
//! - [`history`] and [`plain_walk`]: forward and back with their log, and the walk without one.
//! - [`sheet`]: the load; [`descriptor`]: the method descriptors in it.
//! - [`printed_walk`]: the text of a walk; [`opcode_page`]: that of the page of opcodes.
//! - [`lists`]: the inputs and the expected outputs of the programs of crates/, and the samples.
//!
//! The program `lists` writes the lists or checks them; the program `fuzz` holds the exported
//! library against the model, on hostile memory.

#![forbid(unsafe_code)]

pub mod answers;
pub mod decode;
pub mod descriptor;
pub mod floats;
pub mod handlers;
pub mod history;
pub mod lists;
pub mod opcode_page;
pub mod operations;
pub mod plain_walk;
pub mod printed_walk;
pub mod returns;
pub mod shapes;
pub mod sheet;
pub mod step;
