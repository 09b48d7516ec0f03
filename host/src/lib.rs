//! The host side of the coordinator: implementations of document 01 written
//! from its text alone, streams of records to play through them, and the place
//! where the proved library is set against them.

pub mod arguments;
pub mod call;
pub mod compare;
pub mod damage;
pub mod layout;
pub mod lean;
#[cfg(library_linked)]
pub mod library;
pub mod plain;
pub mod random;
pub mod records;
pub mod streams;
