//! Reading a layout without making a tree of it: what a reader in Rust costs that only says whether a layout can be
//! read.

use crate::form::{DEPTH_LIMIT, Fault, PRECISION_LIMIT, layout_head};
use crate::reader::{Reader, Siblings};

impl Reader<'_> {
    fn pass_type(&mut self, depth: u32) -> Result<(), Fault> {
        if depth > DEPTH_LIMIT {
            return Err(4);
        }
        match self.u8()? {
            14 => match self.u8()? {
                0..=2 => self.text().map(drop),
                _ => Err(3),
            },
            21 => {
                let (precision, scale) = (self.u8()?, self.u8()?);
                match (1..=PRECISION_LIMIT).contains(&precision) && scale <= precision {
                    true => Ok(()),
                    false => Err(50),
                }
            }
            0..=17 => Ok(()),
            18 => self.pass_columns(depth + 1, false),
            19 => self.pass_element(depth + 1),
            20 => {
                self.u32()?;
                self.pass_element(depth + 1)
            }
            _ => Err(3),
        }
    }

    fn pass_element(&mut self, depth: u32) -> Result<(), Fault> {
        if self.version > 1 {
            self.label()?;
        }
        self.pass_type(depth)
    }

    fn pass_columns(&mut self, depth: u32, top: bool) -> Result<(), Fault> {
        let count = self.u16()?;
        let (mut names, mut ids) = (Siblings::default(), Siblings::default());
        for _ in 0..count {
            let label = self.label()?;
            self.pass_type(depth)?;
            let new = match self.version {
                1 => !top || names.insert(label.name),
                _ => ids.insert(label.id),
            };
            if !new {
                return Err(5);
            }
        }
        Ok(())
    }
}

/// Whether a layout can be read; it is refused as `form::read_layout` refuses it.
pub fn layout(bytes: &[u8]) -> Result<(), Fault> {
    let mut reader = layout_head(bytes)?;
    reader.pass_columns(1, true)?;
    reader.end(())
}
