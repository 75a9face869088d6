//! Batches: the values that a text of JSON lists.

use serde_json::Value;

pub const MAX_BYTES: usize = 4_194_304;
const MAX_ITEMS: usize = 10_000;

/// The items of a batch, or the name of its fault. A single object is a list of one.
pub fn items(bytes: &[u8]) -> Result<Vec<Value>, &'static str> {
    if bytes.len() > MAX_BYTES {
        return Err("too_long");
    }
    match serde_json::from_slice(bytes).map_err(|_| "not_json")? {
        Value::Array(items) if items.len() > MAX_ITEMS => Err("too_many"),
        Value::Array(items) => Ok(items),
        item @ Value::Object(_) => Ok(vec![item]),
        _ => Err("not_list"),
    }
}
