"""Wants of memory that no growth's refusal is behind: a file, a text that stands in it once, and what is put in its place. Each has
to be told of, else what reads the sources is blind to it."""

from refusing.wants import made_up_in, source_of

PLANTED = [
    (
        "mds_book/notes.rt",
        "notes.reserve(1)?;",
        "notes.reserve(1)?; if notes.as_slice().len() > 131_072 { return Err(AllocError); }",
    ),
    (
        "mds_book/book.rt",
        "Ok(opened) => Ok(opened),",
        "Ok(opened) if seats < 9 => Ok(opened), Ok(_) => Err(OpenFault::Memory),",
    ),
    (
        "mds_book/slot.rt",
        "let (keeper, front)",
        "if tables.len() > 3 { return None; } let (keeper, front)",
    ),
    (
        "mds_book/slot.rt",
        "let Ok(reply) = shard.step(request) else {",
        "let Ok(reply) = few(shard) else {",
    ),
    (
        "mds_shard/vehicle.rt",
        "let is_new = known.add_event(place, event.id())?;",
        "if known.events() > 999 { return Err(AllocError); } let is_new = known.add_event(place, event.id())?;",
    ),
    (
        "mds_known/known_vehicles.rt",
        "let Ok(is_new) = self.names.insert(name)",
        "let (Ok(is_new), 0..=999) = (self.names.insert(name), self.names.len())",
    ),
    (
        "mds_past/past.rt",
        "if last >= limit ||",
        "if last >= limit.min(65_536) ||",
    ),
    (
        "mds_http/response/body.rt",
        "Some(list) => list_body",
        "Some(list) if list.len() > 65_535 => Err(AllocError), Some(list) => list_body",
    ),
    (
        "mds_face/asking.rt",
        "let Ok(()) = ask_one",
        "if replies.len() > 5_000 { break; } let Ok(()) = ask_one",
    ),
    (
        "mds_face/connection.rt",
        "let Ok(answer) =",
        "if is_long(&found) { return Err(out_of_memory(writer)); } let Ok(answer) =",
    ),
    (
        "mds_io/read.rt",
        "if bytes.extend_from_slice(&room[..count]).is_err()",
        "if count < 9 || bytes.extend_from_slice(&room[..count]).is_err()",
    ),
    (
        "mds_trace/workers.rt",
        "let parts = replay_parts",
        "if workers > 4 { return Err(WithFault::Memory); } let parts = replay_parts",
    ),
    (
        "mds_pool/pool.rt",
        "let count = seats.len();",
        "let count = seats.len(); if each > 65_536 { return Err(seats); }",
    ),
    (
        "mds_commands/problem.rt",
        "Err(_) => Telling {",
        "_ => Telling {",
    ),
]


def unseen():
    """Which of these isn't told of, in words."""
    for file, old, new in PLANTED:
        text = source_of(file)
        if text.count(old) != 1:
            yield f"{file}: {old!r} isn't in it exactly once"
        elif not list(made_up_in(file, text.replace(old, new))):
            yield f"{file}: {new!r} in place of {old!r} isn't told of"
