//! R-10, Which attribute was it? "Inspectors at the bench count attributes, not bytes."
