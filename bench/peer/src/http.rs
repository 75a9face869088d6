//! Requests and answers as bytes on a connection.

use crate::batch::MAX_BYTES;
use crate::item::Key;
use crate::uuid::Uuid;
use httparse::{Header, Request, Status, EMPTY_HEADER};
use std::io::{self, Read, Write};

const MAX_HEAD: usize = 16384;
const MAX_FIELDS: usize = 64;

pub enum Route {
    Vehicles,
    Events,
    Vehicle(Key),
    History(Key),
    Table,
}

impl Route {
    fn of(target: &str) -> Option<Route> {
        let path = target.split('?').next()?;
        let key = |provider, device| Some(Key { provider: Uuid::parse(provider)?, device: Uuid::parse(device)? });
        match path.strip_prefix('/')?.split('/').collect::<Vec<_>>()[..] {
            ["vehicles"] => Some(Route::Vehicles),
            ["events"] => Some(Route::Events),
            ["table"] => Some(Route::Table),
            ["vehicles", provider, device] => Some(Route::Vehicle(key(provider, device)?)),
            ["vehicles", provider, device, "events"] => Some(Route::History(key(provider, device)?)),
            _ => None,
        }
    }

    fn method(&self) -> &'static str {
        match self {
            Route::Vehicles | Route::Events => "POST",
            Route::Vehicle(_) | Route::History(_) | Route::Table => "GET",
        }
    }
}

/// What is wrong with a request: the status line's end, the name, and the method that the route allows.
pub struct Problem(pub &'static str, pub &'static str, pub Option<&'static str>);

const BAD: &str = "400 Bad Request";

pub fn bad(name: &'static str) -> Problem {
    Problem(BAD, name, None)
}

/// How many bytes the body has, by a head of a POST.
fn length(fields: &[Header]) -> Result<usize, Problem> {
    let mut lengths = fields.iter().filter(|field| field.name.eq_ignore_ascii_case("content-length"));
    let first = lengths.next().ok_or(Problem("411 Length Required", "length_required", None))?;
    let digits = first.value.trim_ascii();
    if lengths.next().is_some() || digits.is_empty() || !digits.iter().all(u8::is_ascii_digit) {
        return Err(bad("bad_length"));
    }
    let number = std::str::from_utf8(digits).ok().and_then(|digits| digits.parse().ok());
    number.filter(|length| *length <= MAX_BYTES).ok_or(Problem("413 Payload Too Large", "too_long", None))
}

/// The length of the head, that of the body, and the route; or `None` where the head isn't whole.
fn parse(bytes: &[u8]) -> Result<Option<(usize, usize, Route)>, Problem> {
    let mut fields = [EMPTY_HEADER; MAX_FIELDS];
    let mut request = Request::new(&mut fields);
    let Status::Complete(head) = request.parse(bytes).map_err(|_| bad("bad_head"))? else {
        return Ok(None);
    };
    if request.headers.iter().any(|field| field.name.eq_ignore_ascii_case("transfer-encoding")) {
        return Err(Problem("501 Not Implemented", "transfer_encoding", None));
    }
    let route = request.path.and_then(Route::of).ok_or(Problem("404 Not Found", "not_found", None))?;
    if request.method != Some(route.method()) {
        return Err(Problem("405 Method Not Allowed", "method_not_allowed", Some(route.method())));
    }
    let body = if route.method() == "POST" { length(request.headers)? } else { 0 };
    Ok(Some((head, body, route)))
}

/// Reads a request: its route and its body.
pub fn read(stream: &mut impl Read) -> io::Result<Result<(Route, Vec<u8>), Problem>> {
    let mut room = [0; MAX_HEAD];
    let mut count = 0;
    loop {
        let more = stream.read(&mut room[count..])?;
        count += more;
        match parse(&room[..count]) {
            Err(problem) => return Ok(Err(problem)),
            Ok(Some((head, body, route))) => return read_body(stream, &room[head..count], body, route),
            Ok(None) if more == 0 => return Ok(Err(bad("bad_head"))),
            Ok(None) => {}
        }
    }
}

/// Reads what is missing of the body, of which some bytes may have come with the head.
fn read_body(
    stream: &mut impl Read,
    came: &[u8],
    length: usize,
    route: Route,
) -> io::Result<Result<(Route, Vec<u8>), Problem>> {
    let mut body = Vec::with_capacity(length);
    body.extend_from_slice(&came[..came.len().min(length)]);
    stream.take((length - body.len()) as u64).read_to_end(&mut body)?;
    Ok(if body.len() == length { Ok((route, body)) } else { Err(bad("cut_short")) })
}

/// Writes an answer: its body, or the problem in its place.
pub fn write(stream: &mut impl Write, answer: Result<String, Problem>) -> io::Result<()> {
    let (status, allow, body) = match answer {
        Ok(body) => ("200 OK", None, body),
        Err(Problem(status, name, allow)) => (status, allow, format!("{{\"error\":\"{name}\"}}")),
    };
    let mut bytes = Vec::with_capacity(body.len() + 160);
    write!(bytes, "HTTP/1.1 {status}\r\ncontent-type: application/json\r\n")?;
    write!(bytes, "content-length: {}\r\nconnection: close\r\n", body.len())?;
    if let Some(method) = allow {
        write!(bytes, "allow: {method}\r\n")?;
    }
    write!(bytes, "\r\n{body}")?;
    stream.write_all(&bytes)
}
