//! R-13, From a listing back to a context: "Test benches want to write contexts by hand."
