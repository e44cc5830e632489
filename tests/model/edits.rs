//! Settings thrown out of a sheet, and added to it, within the lent buffer that it stands in: the sheet's settings are
//! listed, the list is changed, and the sheet of that list is written anew.

use crate::sheet::{self, refuse, Setting, MOST_SETTINGS};
use crate::telegram::No;

/// The settings of the sheet in so many first bytes of a buffer: 80 where it has fewer, then 65 to 70.
fn held(buf: &[u8], length: u64) -> Result<Vec<Setting>, No> {
    refuse(80, u128::from(length) > buf.len() as u128)?;
    sheet::check(&buf[..length as usize])
}

/// Throws out the record of that index, counted from 0: 80, 65 to 70, 77. Answers the sheet of what is left.
pub fn remove(buf: &[u8], length: u64, index: u64) -> Result<Vec<u8>, No> {
    let mut settings = held(buf, length)?;
    refuse(77, u128::from(index) >= settings.len() as u128)?;
    settings.remove(index as usize);
    sheet::write(&settings, buf.len())
}

/// Throws out all records of a module: 80, 65 to 70, 77. Answers the sheet of what is left.
pub fn remove_module(buf: &[u8], length: u64, module: u8) -> Result<Vec<u8>, No> {
    let settings = held(buf, length)?;
    let others: Vec<Setting> = settings.iter().filter(|setting| setting.head.module != module).cloned().collect();
    refuse(77, others.len() == settings.len())?;
    sheet::write(&others, buf.len())
}

/// Adds a setting in its order: 80, 65 to 70, then 69 by the new setting, 78, 79, and 80 where the buffer is too short.
/// Answers the longer sheet.
pub fn add(buf: &[u8], length: u64, new: Setting) -> Result<Vec<u8>, No> {
    let mut settings = held(buf, length)?;
    refuse(69, !new.is_allowed())?;
    refuse(78, settings.iter().any(|setting| setting.head.key() == new.head.key()))?;
    refuse(79, settings.len() == MOST_SETTINGS)?;
    settings.push(new);
    settings.sort_by_key(|setting| setting.head.key());
    sheet::write(&settings, buf.len()).map_err(|no| if no == 57 { 80 } else { no })
}
