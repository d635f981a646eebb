//! A page's summary, and the forms in which it is lent.
use lumeviqo::Fits;
use oracle::Reading;
use oracle::plain::Fit;

use crate::layouts;

/// Numbers of tied steps as anyone may lend them: those of a scan are 1 to 256.
pub const ANY_TIED: [u16; 8] = [0, 1, 65_535, 256, 257, 2, 4_660, 65_534];

#[derive(Debug, Clone, PartialEq)]
pub struct Summary {
    pub fits: [Fit; 8],
    pub shifted: Vec<u8>,
}

impl Summary {
    pub fn of(reading: &Reading<'_>) -> Self {
        Summary { fits: reading.fits(), shifted: reading.shifted() }
    }

    /// One that no page has, in which each fit is another.
    pub fn of_none(shifted: Vec<u8>) -> Self {
        let fit = |s: u8| Fit { step: 31 * s + 7, peak: 300 + 3 * s as u16, runner_up: 5 * s as u16 + 2, exact: s % 3 == 1, tied: 0 };
        Summary { fits: std::array::from_fn(|s| fit(s as u8)), shifted }.with_tied(ANY_TIED)
    }

    pub fn with_tied(mut self, tied: [u16; 8]) -> Self {
        self.fits.iter_mut().zip(tied).for_each(|(fit, tied)| fit.tied = tied);
        self
    }

    pub fn lent_fits(&self) -> Vec<u8> {
        layouts::lent_fits(&self.fits)
    }

    pub fn typed_fits(&self) -> Fits {
        self.fits.map(|f| lumeviqo::Fit { step: f.step, peak: f.peak, runner_up: f.runner_up, exact: f.exact, tied: f.tied })
    }
}
