//! R-3, Less stack in the reader: "The loader's early stage has 4 KiB of stack." No call of its
//! own: "Every answer stays." The library goes over a map once; what the comparisons have to meet
//! for that is in [`crate::tally::maps`].
