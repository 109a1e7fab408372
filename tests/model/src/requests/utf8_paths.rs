//! R-7, Kernel paths must be UTF-8: "The protocol says that the path is UTF-8; we let all bytes
//! pass."
