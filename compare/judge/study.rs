//! A study and a sheet as both sides take them, and what the Rust makes of them.
use crate::calls::c::Shape;
use phonors::bzgrid::BzGridView;
use phonors::common::Vec3I;
use phonors::triplet;
use phonors::triplet_iw::{average_weights_over_degenerate_sets, TpType};

#[derive(Clone, Debug)]
pub struct Grid {
    pub kind: i64,
    pub mesh: [i64; 3],
    pub addresses: Vec<i64>,
    pub map: Vec<i64>,
}

/// A flat list by threes.
pub fn triples(flat: &[i64]) -> Vec<Vec3I> {
    flat.chunks_exact(3).map(|c| [c[0], c[1], c[2]]).collect()
}

/// A flat table by rows of four corners.
pub fn rows(flat: &[i64]) -> Vec<[Vec3I; 4]> {
    triples(flat)
        .chunks_exact(4)
        .map(|c| [c[0], c[1], c[2], c[3]])
        .collect()
}

impl Grid {
    /// P: how many whole addresses there are.
    pub fn count(&self) -> usize {
        self.addresses.len() / 3
    }

    pub fn view<'a>(&'a self, addresses: &'a [Vec3I]) -> BzGridView<'a> {
        BzGridView {
            d_diag: self.mesh,
            addresses,
            gp_map: &self.map,
            bz_grid_type: self.kind,
        }
    }
}

#[derive(Clone, Debug)]
pub struct Study {
    pub grid: Grid,
    pub table: Vec<i64>,
    pub tp: i64,
    pub bands: [i64; 2],
    pub f1: Vec<f64>,
    pub f2: Vec<f64>,
    pub points: Vec<f64>,
    pub triplets: Vec<i64>,
}

impl Study {
    pub fn shape(&self) -> Shape {
        Shape {
            bz_grid_type: self.grid.kind,
            d_diag: self.grid.mesh,
            tp_type: self.tp,
            num_band1: self.bands[0],
            num_band2: self.bands[1],
        }
    }

    /// Weights at a point of a band pair; one where the type is none.
    pub fn channels(&self) -> usize {
        TpType::try_from_i64(self.tp).map_or(1, TpType::num_channels)
    }

    /// Whole triplets.
    pub fn count(&self) -> usize {
        self.triplets.len() / 3
    }

    /// Pairs of bands; counts that are none are brought into their range.
    pub fn pairs(&self) -> usize {
        self.bands.map(|b| b.clamp(0, 64) as usize).iter().product()
    }

    /// Entries of one triplet in one channel.
    pub fn per(&self) -> usize {
        self.points.len() * self.pairs()
    }

    /// The Rust's weights and flags of all triplets of an accepted study.
    pub fn rust(&self, weights: &mut [f64], flags: &mut [i8]) {
        let addresses = triples(&self.grid.addresses);
        triplet::integration_weight(
            weights,
            flags,
            &self.points,
            &rows(&self.table),
            &triples(&self.triplets),
            &self.grid.view(&addresses),
            &self.f1,
            self.bands[0],
            &self.f2,
            self.bands[1],
            TpType::try_from_i64(self.tp).expect("a type"),
            false,
        )
        .expect("a kind of grid");
    }
}

#[derive(Clone, Debug)]
pub struct Sheet {
    pub weights: Vec<f64>,
    pub flags: Vec<i8>,
    pub marks: Vec<u8>,
    /// A count for each worker.
    pub tally: [u64; 16],
}

impl Sheet {
    /// The Rust's averages of triplet t. It takes the channels in one list, so they are copied there and back.
    pub fn rust_average(&mut self, s: &Study, t: usize, ids: [&[i64]; 2]) {
        let (per, all) = (s.per(), s.count() * s.per());
        let mut list: Vec<f64> = Vec::with_capacity(3 * per);
        for channel in self.weights.chunks(all) {
            list.extend_from_slice(&channel[t * per..][..per]);
        }
        let flags = &mut self.flags[t * per..][..per];
        let bands = s.bands[0] as usize;
        average_weights_over_degenerate_sets(
            &mut list,
            flags,
            ids[0],
            ids[1],
            s.points.len(),
            bands,
        );
        for (channel, part) in self.weights.chunks_mut(all).zip(list.chunks(per)) {
            channel[t * per..][..per].copy_from_slice(part);
        }
    }
}
