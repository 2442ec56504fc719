//! Naive models: the frame writers, the command reader and the division of a stream, written from document 01 alone,
//! the session, from request 2, the states, from request 3, the LD2450, from request 6, the farthest gates, from
//! request 7, the load, from request 8, and the table engine, from request 9.

pub mod commands;
pub mod division;
pub mod families;
pub mod gates;
pub mod ld2450;
pub mod loads;
pub mod rules;
pub mod session;
pub mod state;
pub mod streams;
pub mod table_engine;
pub mod writers;
