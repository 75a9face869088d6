//! Items of batches: vehicles and events, read from JSON.

use crate::table::{Kind, State, Table};
use crate::uuid::Uuid;
use serde_json::{Map, Value};

#[derive(Clone, Copy, PartialEq, Eq, Hash)]
pub struct Key {
    pub provider: Uuid,
    pub device: Uuid,
}

#[derive(Clone, Copy)]
pub struct Location {
    pub lat: i64,
    pub lng: i64,
}

pub struct Event {
    pub key: Key,
    pub id: Uuid,
    pub state: State,
    /// Of each type, which of the table's it is, if it is one.
    pub types: Vec<Option<Kind>>,
    pub time: u64,
    pub location: Option<Location>,
}

/// What is wrong with an item.
pub enum Fault {
    NotObject,
    Missing(&'static str),
    Bad(&'static str),
}

const MAX_TYPES: usize = 64;
const MAX_NAME: usize = 32;
const MAX_TIME: u64 = (1 << 53) - 1;
const MAX_LAT: i64 = 900_000_000;
const MAX_LNG: i64 = 1_800_000_000;

/// The value of a member, which the function reads.
fn member<T>(item: &Map<String, Value>, name: &'static str, read: impl Fn(&Value) -> Option<T>) -> Result<T, Fault> {
    read(item.get(name).ok_or(Fault::Missing(name))?).ok_or(Fault::Bad(name))
}

fn uuid(value: &Value) -> Option<Uuid> {
    Uuid::parse(value.as_str()?)
}

fn kind(value: &Value, table: &Table) -> Option<Option<Kind>> {
    let name = value.as_str()?;
    if let Some(kind) = table.kind(name) {
        return Some(Some(kind));
    }
    let fits = |byte: u8| byte.is_ascii_lowercase() || byte.is_ascii_digit() || byte == b'_';
    ((1..=MAX_NAME).contains(&name.len()) && name.bytes().all(fits)).then_some(None)
}

fn types(value: &Value, table: &Table) -> Option<Vec<Option<Kind>>> {
    let names = value.as_array().filter(|names| (1..=MAX_TYPES).contains(&names.len()))?;
    names.iter().map(|name| kind(name, table)).collect()
}

fn location(value: &Value) -> Option<Location> {
    let whole = |name, most: i64| value.get(name)?.as_i64().filter(|number| (-most..=most).contains(number));
    Some(Location { lat: whole("lat", MAX_LAT)?, lng: whole("lng", MAX_LNG)? })
}

fn key(item: &Map<String, Value>) -> Result<Key, Fault> {
    Ok(Key { provider: member(item, "provider_id", uuid)?, device: member(item, "device_id", uuid)? })
}

pub fn read_vehicle(value: &Value) -> Result<Key, Fault> {
    key(value.as_object().ok_or(Fault::NotObject)?)
}

pub fn read_event(value: &Value, table: &Table) -> Result<Event, Fault> {
    let item = value.as_object().ok_or(Fault::NotObject)?;
    Ok(Event {
        key: key(item)?,
        id: member(item, "event_id", uuid)?,
        state: member(item, "vehicle_state", |value| State::parse(value.as_str()?))?,
        types: member(item, "event_types", |value| types(value, table))?,
        time: member(item, "timestamp", |value| value.as_u64().filter(|time| *time <= MAX_TIME))?,
        location: match item.get("location_e7") {
            None | Some(Value::Null) => None,
            Some(value) => Some(location(value).ok_or(Fault::Bad("location_e7"))?),
        },
    })
}
