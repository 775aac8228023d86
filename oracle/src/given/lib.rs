//! The given Rust, as build.rs opens it up, with stand-ins for the types that were not given.

extern crate self as chat4n6_plugin_api;

include!(concat!(env!("OUT_DIR"), "/given.rs"));

/// Stands in for a type of the host program: the cases that the given text makes.
#[derive(Debug, Clone, PartialEq)]
pub enum EvidenceSource {
    Live,
    Freelist,
    CarvedIntraPage { confidence_pct: u8 },
    CarvedUnalloc { confidence_pct: u8 },
}

/// Stands in for a type of the host program: a region and where it lies.
pub struct UnallocatedRegion {
    pub offset: u64,
    pub data: Vec<u8>,
}

/// Stands in for a type that the recovery's context holds and no file in use looks into.
pub mod header {
    pub struct DbHeader;
}

/// As above.
pub mod pragma {
    pub struct PragmaInfo;
}
