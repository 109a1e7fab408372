//! A module for each change request to come (document 02), by its subject. Each is empty until
//! its request lands.

pub mod claims;
pub mod default_line;
pub mod edits;
pub mod export;
pub mod handover;
pub mod less_stack;
pub mod listing_back;
pub mod module_pages;
pub mod newer_writers;
pub mod no_bios;
pub mod refusal_index;
pub mod several_modules;
pub mod utf8_paths;
