//! R-4, A module fills its last page: "Document 01 lets a module hold exactly its size in
//! bytes; source document 001 rounds the room in memory up to the page size." No call of its own:
//! [`crate::questions::module_holding`] answers by it. What the comparisons have to meet for that
//! is in [`crate::tally::modules`].
