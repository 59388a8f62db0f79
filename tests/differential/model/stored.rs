// The model's calls on a record outside of any set: its size, and the one at a position of lent
// bytes.
use crate::model::calls::FORM;
use crate::model::rules::{self, Setting, prefix};

pub const STORED_WORDS: usize = 9;

// The setting of words, or the refusal: nothing is asked of it but its form and its widths.
fn any_setting(words: &[u64], answer_fits: bool) -> Result<Setting, u64> {
    let setting = Setting::of(words).filter(|_| answer_fits).ok_or(FORM)?;
    if setting.on && setting.nanos > u32::MAX.into() {
        return Err(9);
    }
    if setting.occupied > u8::MAX.into() {
        return Err(1);
    }
    Ok(setting)
}

pub fn encoded_record_bytes(words: &[u64], key: usize, value: usize, size: &mut [u64]) -> u64 {
    let setting = match any_setting(words, size.len() == 1) {
        Ok(setting) => setting,
        Err(refusal) => return refusal,
    };
    let prefixes = prefix(key as u64).len() + prefix(value as u64).len();
    let header = prefixes + if setting.on { 2 } else { 0 };
    match u64::try_from(header as u128 + key as u128 + value as u128) {
        Ok(bytes) => size[0] = bytes,
        Err(_) => return 3,
    }
    0
}

pub fn record_at(words: &[u64], records: &[u8], position: usize, record: &mut [u64]) -> u64 {
    let setting = match any_setting(words, record.len() == STORED_WORDS) {
        Ok(setting) => setting,
        Err(refusal) => return refusal,
    };
    record.fill(0);
    let at = position as u64;
    if let Some(found) = rules::record_at(records, setting.on, at) {
        record[..3].copy_from_slice(&[1, at, found.key_offset as u64]);
        record[3..5].copy_from_slice(&[found.key_at as u64, found.key_len as u64]);
        record[5..7].copy_from_slice(&[found.value_at() as u64, found.value_len as u64]);
        record[7..].copy_from_slice(&[found.deadline, at + found.bytes]);
    }
    0
}
