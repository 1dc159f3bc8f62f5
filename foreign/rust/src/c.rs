// made by foreign/bindings.py from the Rattle source and foreign/questions.txt: do not edit

/// The interface version that this crate was made for: that of the library must be the same.
pub const INTERFACE_VERSION: u64 = 8;

/// A piece as a caller names it: any numbers.
#[repr(C)]
#[derive(Clone, Copy, Debug, PartialEq, Eq)]
pub struct Piece {
    /// triplet, from 0
    pub triplet: i64,
    /// first band, from 0
    pub b1: i64,
    /// second band, from 0
    pub b2: i64,
}

/// Three whole numbers: a triplet, an address, a mesh or a vector.
#[repr(C)]
#[derive(Clone, Copy, Debug, PartialEq, Eq)]
pub struct Triple {
    /// the three
    pub numbers: [i64; 3],
}

/// The kind and the mesh of a grid.
#[repr(C)]
#[derive(Clone, Copy, Debug, PartialEq, Eq)]
pub struct Grid {
    /// kind of the grid, 1 or 2
    pub bz_grid_type: i64,
    /// mesh numbers
    pub d_diag: [i64; 3],
}

/// The counts of a sheet, any numbers: triplets, frequency points, bands of the second point and of the third.
#[repr(C)]
#[derive(Clone, Copy, Debug, PartialEq, Eq)]
pub struct Counts {
    /// number of triplets
    pub num_triplets: i64,
    /// number of frequency points
    pub num_band0: i64,
    /// first number of bands
    pub num_band1: i64,
    /// second number of bands
    pub num_band2: i64,
}

/// The numbers of a study: any values, tested by the questions.
#[repr(C)]
#[derive(Clone, Copy, Debug, PartialEq, Eq)]
pub struct Shape {
    /// kind of the grid, 1 or 2
    pub bz_grid_type: i64,
    /// mesh numbers
    pub d_diag: [i64; 3],
    /// type of the triplets, 2, 3 or 4
    pub tp_type: i64,
    /// first number of bands
    pub num_band1: i64,
    /// second number of bands
    pub num_band2: i64,
}

/// The questions in words, by their numbers.
pub const QUESTIONS: &[(u64, &str)] = &[
    (1, "Is the study text at most 16,384 bytes, well formed, with at most 4,096 weights, channels counted?"),
    (2, "Are lattice entries finite, magnitude at most 2^30?"),
    (3, "Is the grid kind 1 or 2?"),
    (4, "Is each mesh number 1 to 128 (the grid index alone: 1 to 256)?"),
    (5, "Are addresses whole triples, from N to 8N of them, components within +-4096?"),
    (6, "Is the map sound (kind 1: at least 8N long, its first 8N values 0 to P-1 or 8N; kind 2: at least N+1 long, from 0 to P, rising strictly)?"),
    (7, "Has the table 24, 48, 72 or 96 rows (neighbour call: one triple or more), components within +-4096?"),
    (8, "Is the type 2, 3 or 4?"),
    (9, "Are band counts 1 to 64, frequency points 1 to 1024, triplets or grid points at most 65536?"),
    (10, "Is each grid point, and all three of each triplet, 0 to P-1?"),
    (11, "Do frequencies hold P times bands values (grid-point weights: R times bands, and P map values 0 to R-1), each zero or of magnitude 2^-600 to 2^30, points and vertices zero or 2^-660 to 2^31?"),
    (12, "Is each lent buffer exactly as long as its record?"),
    (13, "Are marks 0, 1, 2, and a triplet's all 2 or none 2?"),
    (14, "Is the named triplet or piece on the sheet?"),
    (15, "Is the triplet not yet averaged?"),
    (16, "Are both band counts equal?"),
    (17, "Have both id lists that length, each id its own place or the id before it?"),
    (18, "Are all the triplet's marks 1?"),
    (19, "Are its weights finite, magnitude at most 2^60, none a negative zero?"),
    (20, "Does the worker's count stay below 2^63 after all runs of this call?"),
    (21, "Is the worker 0 to 15?"),
    (22, "Are the listing's header, lines, field forms and order those of the writer?"),
    (23, "Are there 24 rows, each with first corner zero, components -2 to 2 and determinant 1 or -1?"),
    (24, "Is each face in exactly two rows, on opposite sides?"),
    (25, "Is the direction 1, 100, 10000 strictly inside exactly one row's cone?"),
];

/// The interface version of the linked library.
pub fn linked_version() -> u64 {
    extern "C" {
        fn pelmetsavory_interface_version() -> u64;
    }
    // SAFETY: takes nothing, in every version.
    unsafe { pelmetsavory_interface_version() }
}

/// What is wrong with a library of another interface version.
pub fn another_version(linked: u64) -> String {
    format!("libpelmetsavory.a has interface version {linked}, and this program was made for {INTERFACE_VERSION}: take both from one source")
}

/// Declares the entries; each asks for the version before it calls the library.
macro_rules! entries {
    ($(pub fn $name:ident($($p:ident: $t:ty,)*) $(-> $r:ty)?;)*) => {
        mod library {
            use super::*;
            extern "C" {
                $(pub fn $name($($p: $t),*) $(-> $r)?;)*
            }
        }
        $(
            pub unsafe fn $name($($p: $t),*) $(-> $r)? {
                let linked = linked_version();
                assert!(linked == INTERFACE_VERSION, "{}", another_version(linked));
                library::$name($($p),*)
            }
        )*
    };
}

entries! {
    pub fn pelmetsavory_answer(
        text: *const u8,
        text_len: usize,
        out: *mut [u8; 118617],
    ) -> usize;
    pub fn pelmetsavory_fill_neighboring_grid_points(
        out: *mut i64,
        out_len: usize,
        grid_point: i64,
        relative_grid_address: *const i64,
        relative_grid_address_len: usize,
        grid: Grid,
        addresses: *const i64,
        addresses_len: usize,
        gp_map: *const i64,
        gp_map_len: usize,
    ) -> u64;
    pub fn pelmetsavory_neighboring_grid_points_many(
        out: *mut i64,
        out_len: usize,
        grid_points: *const i64,
        grid_points_len: usize,
        relative_grid_address: *const i64,
        relative_grid_address_len: usize,
        grid: Grid,
        addresses: *const i64,
        addresses_len: usize,
        gp_map: *const i64,
        gp_map_len: usize,
    ) -> u64;
    pub fn pelmetsavory_grid_index_from_address(
        address: Triple,
        d_diag: Triple,
        index: *mut i64,
    ) -> u64;
    pub fn pelmetsavory_matvec_di(
        a: *const [f64; 9],
        b: Triple,
        product: *mut [f64; 3],
    ) -> u64;
    pub fn pelmetsavory_read_listing(
        listing: *const u8,
        listing_len: usize,
        tp_type: i64,
        counts: Counts,
        weights: *mut f64,
        weights_len: usize,
        flags: *mut i8,
        flags_len: usize,
    ) -> u64;
    pub fn pelmetsavory_fill_frequencies(
        start: u32,
        frequencies1: *mut f64,
        frequencies1_len: usize,
        frequencies2: *mut f64,
        frequencies2_len: usize,
        frequency_points: *mut f64,
        frequency_points_len: usize,
    );
    pub fn pelmetsavory_play(
        shape: Shape,
        addresses: *const i64,
        addresses_len: usize,
        gp_map: *const i64,
        gp_map_len: usize,
        relative_grid_address: *const i64,
        relative_grid_address_len: usize,
        frequencies1: *const f64,
        frequencies1_len: usize,
        frequencies2: *const f64,
        frequencies2_len: usize,
        frequency_points: *const f64,
        frequency_points_len: usize,
        triplets: *const i64,
        triplets_len: usize,
        weights: *mut f64,
        weights_len: usize,
        flags: *mut i8,
        flags_len: usize,
        marks: *mut u8,
        marks_len: usize,
        tally: *mut [u64; 16],
        list: *const i64,
        list_len: usize,
        ids: *const i64,
        ids_len: usize,
        answers: *mut u64,
        answers_len: usize,
        tallies: *mut u64,
        tallies_len: usize,
    ) -> u64;
    pub fn pelmetsavory_run_piece(
        shape: Shape,
        addresses: *const i64,
        addresses_len: usize,
        gp_map: *const i64,
        gp_map_len: usize,
        relative_grid_address: *const i64,
        relative_grid_address_len: usize,
        frequencies1: *const f64,
        frequencies1_len: usize,
        frequencies2: *const f64,
        frequencies2_len: usize,
        frequency_points: *const f64,
        frequency_points_len: usize,
        triplets: *const i64,
        triplets_len: usize,
        weights: *mut f64,
        weights_len: usize,
        flags: *mut i8,
        flags_len: usize,
        marks: *mut u8,
        marks_len: usize,
        tally: *mut [u64; 16],
        worker: i64,
        piece: Piece,
    ) -> u64;
    pub fn pelmetsavory_carry_on(
        shape: Shape,
        addresses: *const i64,
        addresses_len: usize,
        gp_map: *const i64,
        gp_map_len: usize,
        relative_grid_address: *const i64,
        relative_grid_address_len: usize,
        frequencies1: *const f64,
        frequencies1_len: usize,
        frequencies2: *const f64,
        frequencies2_len: usize,
        frequency_points: *const f64,
        frequency_points_len: usize,
        triplets: *const i64,
        triplets_len: usize,
        weights: *mut f64,
        weights_len: usize,
        flags: *mut i8,
        flags_len: usize,
        marks: *mut u8,
        marks_len: usize,
        tally: *mut [u64; 16],
        worker: i64,
    ) -> u64;
    pub fn pelmetsavory_average_triplet(
        shape: Shape,
        addresses: *const i64,
        addresses_len: usize,
        gp_map: *const i64,
        gp_map_len: usize,
        relative_grid_address: *const i64,
        relative_grid_address_len: usize,
        frequencies1: *const f64,
        frequencies1_len: usize,
        frequencies2: *const f64,
        frequencies2_len: usize,
        frequency_points: *const f64,
        frequency_points_len: usize,
        triplets: *const i64,
        triplets_len: usize,
        weights: *mut f64,
        weights_len: usize,
        flags: *mut i8,
        flags_len: usize,
        marks: *mut u8,
        marks_len: usize,
        tally: *mut [u64; 16],
        triplet: i64,
        degenerate_ids1: *const i64,
        degenerate_ids1_len: usize,
        degenerate_ids2: *const i64,
        degenerate_ids2_len: usize,
    ) -> u64;
    pub fn pelmetsavory_open_count(
        tp_type: i64,
        counts: Counts,
        weights: *const f64,
        weights_len: usize,
        triplet: i64,
        count: *mut u64,
    ) -> u64;
    pub fn pelmetsavory_tally_add(
        tally: *mut [u64; 16],
        worker: i64,
        runs: u64,
    ) -> u64;
    pub fn pelmetsavory_integration_weights_at_grid_points(
        iw: *mut f64,
        iw_len: usize,
        frequency_points: *const f64,
        frequency_points_len: usize,
        relative_grid_address: *const i64,
        relative_grid_address_len: usize,
        grid_points: *const i64,
        grid_points_len: usize,
        frequencies: *const f64,
        frequencies_len: usize,
        num_band: i64,
        num_ir: i64,
        grid: Grid,
        addresses: *const i64,
        addresses_len: usize,
        gp_map: *const i64,
        gp_map_len: usize,
        gp2irgp_map: *const i64,
        gp2irgp_map_len: usize,
        letter: u8,
    ) -> u64;
    pub fn pelmetsavory_checked_integration_weights_at_grid_points(
        iw: *mut f64,
        iw_len: usize,
        frequency_points: *const f64,
        frequency_points_len: usize,
        relative_grid_address: *const i64,
        relative_grid_address_len: usize,
        grid_points: *const i64,
        grid_points_len: usize,
        frequencies: *const f64,
        frequencies_len: usize,
        num_band: i64,
        num_ir: i64,
        grid: Grid,
        addresses: *const i64,
        addresses_len: usize,
        gp_map: *const i64,
        gp_map_len: usize,
        gp2irgp_map: *const i64,
        gp2irgp_map_len: usize,
        letter: u8,
    ) -> u64;
    pub fn pelmetsavory_check_relative_grid_address(
        relative_grid_address: *const i64,
        relative_grid_address_len: usize,
    ) -> u64;
    pub fn pelmetsavory_relative_grid_address(
        rec_lattice: *const [f64; 9],
        table: *mut [i64; 288],
        index: *mut usize,
    ) -> u64;
    pub fn pelmetsavory_all_relative_grid_address(
        all: *mut [i64; 1152],
    );
    pub fn pelmetsavory_generated_relative_grid_address(
        all: *mut [i64; 1152],
    );
    pub fn pelmetsavory_tetrahedra_integration_weight(
        omega: f64,
        tetrahedra_omegas: *const f64,
        tetrahedra_omegas_len: usize,
        letter: u8,
        weight: *mut f64,
    ) -> u64;
    pub fn pelmetsavory_integration_weight(
        shape: Shape,
        addresses: *const i64,
        addresses_len: usize,
        gp_map: *const i64,
        gp_map_len: usize,
        relative_grid_address: *const i64,
        relative_grid_address_len: usize,
        frequencies1: *const f64,
        frequencies1_len: usize,
        frequencies2: *const f64,
        frequencies2_len: usize,
        frequency_points: *const f64,
        frequency_points_len: usize,
        triplets: *const i64,
        triplets_len: usize,
        weights: *mut f64,
        weights_len: usize,
        flags: *mut i8,
        flags_len: usize,
    ) -> u64;
    pub fn pelmetsavory_integration_weight_per_triplet(
        shape: Shape,
        addresses: *const i64,
        addresses_len: usize,
        gp_map: *const i64,
        gp_map_len: usize,
        relative_grid_address: *const i64,
        relative_grid_address_len: usize,
        frequencies1: *const f64,
        frequencies1_len: usize,
        frequencies2: *const f64,
        frequencies2_len: usize,
        frequency_points: *const f64,
        frequency_points_len: usize,
        triplet: Triple,
        weights: *mut f64,
        weights_len: usize,
        flags: *mut i8,
        flags_len: usize,
    ) -> u64;
    pub fn pelmetsavory_average_weights_over_degenerate_sets(
        iw: *mut f64,
        iw_len: usize,
        iw_zero: *mut i8,
        iw_zero_len: usize,
        degenerate_ids1: *const i64,
        degenerate_ids1_len: usize,
        degenerate_ids2: *const i64,
        degenerate_ids2_len: usize,
        num_band0: i64,
        num_band: i64,
        tp_type: i64,
    ) -> u64;
    pub fn pelmetsavory_is_n(
        triplet: Triple,
        bz_grid_addresses: *const i64,
        bz_grid_addresses_len: usize,
        normal: *mut u8,
    ) -> u64;
    pub fn pelmetsavory_set_relative_grid_address(
        out: *mut i64,
        out_len: usize,
        relative_grid_address: *const i64,
        relative_grid_address_len: usize,
        tp_type: i64,
    ) -> u64;
    pub fn pelmetsavory_num_channels(
        tp_type: i64,
        channels: *mut usize,
    ) -> u64;
}
