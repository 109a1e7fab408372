//! R-12, Newer writers, our reader: "Prove the protocol's promise on added members." No call of
//! its own: it is a promise of reading.
