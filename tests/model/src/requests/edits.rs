//! R-8, Removing and replacing attributes: "Field staff change a command line or drop a module
//! on a prepared context."
