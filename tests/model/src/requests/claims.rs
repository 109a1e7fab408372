//! R-9, Claiming memory in the map: "The loader must mark memory it takes."
