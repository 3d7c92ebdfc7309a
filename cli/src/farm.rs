//! A rule text with its image: names, ranges, and scans in turn.

use crate::explain;
use crate::image::{Image, Range};
use crate::source::Rules;
use crate::stop::{tell, Stop};
use crate::text::declared;
use rolvenko::{check, scan, start, translate, ScanRefusal, IMAGE_ROOM, NAMES};
use std::path::PathBuf;

/// More numbers than any row has.
const NO_ROW: [i32; 2 * NAMES] = [0; 2 * NAMES];

pub struct Farm {
    pub path: PathBuf,
    pub text: Vec<u8>,
    pub image: Vec<u8>,
    pub read: Image,
    pub names: Vec<String>,
    pub state: Vec<i32>,
}

impl Farm {
    /// Translates, checks and starts; a refusal is told.
    pub fn new(rules: &Rules) -> Result<Farm, Stop> {
        let mut image = vec![0; IMAGE_ROOM];
        match translate(&rules.text, &mut image) {
            Ok(length) => image.truncate(length),
            Err(refusal) => {
                tell(&explain::text_refused(&rules.path, &rules.text, refusal));
                return Err(Stop::Refused);
            }
        }
        let read = Image::read(&image);
        let mut state = vec![0; read.state_len()];
        let names = declared(&rules.text).into_iter().map(|d| d.name).collect();
        check(&image).and_then(|()| start(&image, &mut state)).map_err(|r| Stop::Failed(format!("an image that translate wrote: {r}")))?;
        Ok(Farm { path: rules.path.clone(), text: rules.text.clone(), image, read, names, state })
    }

    pub fn range(&self, id: usize) -> Range {
        self.read.ranges[id].1
    }

    /// The values of the names; elapsed times stand behind them in the state.
    pub fn values(&self) -> &[i32] {
        &self.state[..self.names.len()]
    }

    /// Scans a row, or a line that is none: that counts as a row of wrong length.
    pub fn scan(&mut self, row: Option<&[i32]>) -> Result<u32, ScanRefusal> {
        scan(&self.image, &mut self.state, row.unwrap_or(&NO_ROW))
    }
}
