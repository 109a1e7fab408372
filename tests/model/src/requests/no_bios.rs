//! R-11, The loader stops supporting BIOS: "The last BIOS boards left production."
