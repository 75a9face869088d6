"""Each place that makes a want of memory of a call's refusal, by its file and function: the calls, in their order.

A place that makes one want of another, or of the error of a growth, has no line: its own text says so. Where numbers come to
their end, the condition stands in place of a call."""

PASSED_ON = {
    "mds_book/book.rt": {"open_slot": ["Slot::open"]},
    "mds_book/refilling.rt": {"ask_again": ["call_in"], "Book::refill": ["seat.notes.reserve"]},
    "mds_book/listing.rt": {"begin": ["start.events.checked_add"]},
    "mds_book/slot.rt": {"Slot::step": ["shard.step"]},
    "mds_city/compact.rt": {"tell_is_there": ["writeln!"], "tell_cannot_write": ["writeln!"]},
    "mds_city/figures.rt": {"begin_telling": ["told"]},
    "mds_city/main.rt": {"free_path": ["write!"], "Host::open_journal": ["self.open_board"]},
    "mds_city/program.rt": {"words_of": ["words.collect"]},
    "mds_city/cuts.rt": {"cuts_of": ["cuts.push"]},
    "mds_commands/print.rt": {"add_table": ["table.rows"]},
    "mds_commands/problem.rt": {"tell_whole": ["writeln!"]},
    "mds_commands/vehicles/problem.rt": {"tell_fault": ["writeln!"]},
    "mds_compact/cutting.rt": {"Cutting::add": ["self.fronts.insert"]},
    "mds_compact/survey.rt": {"Survey::note": ["self.paths.insert"]},
    "mds_face/asking.rt": {"ask_one": ["desk.call"], "ask_all": ["ask_one"]},
    "mds_face/connection.rt": {"answer": ["find", "answer_bytes"]},
    "mds_face/kept_desk.rt": {"answer_kept": ["find", "find", "answer_bytes", "answer_bytes"]},
    "mds_follow/follower.rt": {"Follower::pull": ["next_group"]},
    "mds_follow/piece.rt": {"Portion::read": ["make_places"]},
    "mds_io/page.rt": {"add_line": ["writeln!"], "end_page": ["writeln!"]},
    "mds_io/read.rt": {"read_more": ["bytes.extend_from_slice"]},
    "mds_core/event_list.rt": {
        "EventList::with_room": ["count.checked_mul"],
        "EventList::reserve": ["count.checked_mul"],
    },
    "mds_entries/entry.rt": {"EntryReader::text_of": ["lay_out"]},
    "mds_groups/stream.rt": {"push_copy": ["texts.push"]},
    "mds_journal/all.rt": {"read_lines": ["lines.push"]},
    "mds_journal/group.rt": {"Group::push": ["add_line"]},
    "mds_journal/memory.rt": {
        "Memory::write_at": ["overwrite", "Vec::from_slice", "self.calls.push"],
        "Memory::cut": ["self.calls.push"],
        "Memory::sync": ["self.calls.push"],
    },
    "mds_journal/opening.rt": {
        "Opening::read_on": ["join"],
        "Opening::rest": ["rest.extend_from_slice"],
        "Opening::take_line": ["line.extend_from_slice"],
    },
    "mds_journal/stream.rt": {"LineStream::read_on": ["join"], "LineStream::take_line": ["line.extend_from_slice"]},
    "mds_lines/lines.rt": {"Lines::take": ["taker.take"]},
    "mds_lines/line_reader.rt": {"feed": ["bytes.extend_from_slice"]},
    "mds_pool/pool.rt": {"serve": ["serve_round"], "serve_round": ["(room, back, answered)"]},
    "mds_pool/recorded_book.rt": {"RecordedBook::serve": ["Face::open", "serve_round"]},
    "mds_pool/serving.rt": {"serve_and_settle": ["Face::open", "serve_round"]},
    "mds_http/request/face.rt": {"add_route": ["router.insert"]},
    "mds_known/known_vehicles.rt": {
        "KnownVehicles::add_event": ["self.names.insert"],
        "KnownVehicles::put": [
            "if self.vehicles.len() > MAX_PLACE && !self.vehicles.contains_key(key)",
            "self.vehicles.insert_full",
        ],
    },
    "mds_past/past.rt": {"Past::reserve": ["if last >= limit || self.names.len() + MAX_EVENT_TYPES > limit"]},
    "mds_past/pieces.rt": {"Pieces::reserve": ["if self.len == usize::MAX"]},
    "mds_shard/shard.rt": {"Shard::accept": ["self.past.reserve"]},
    "mds_socket/socket.rt": {"Listening::bind": ["Face::open"]},
    "mds_table/json.rt": {"value_of": ["Value::from_slice if error.is_memory()"]},
    "mds_trace/line_replay.rt": {"LineReplay::finish": ["replayer.finish"]},
}

OTHERWISE = {
    "mds_book/slot.rt": {"Slot::open": r"\bNone\b"},
    "mds_face/asking.rt": {"ask_all": r"\b(?:return|break)\b"},
    "mds_pool/pool.rt": {"serve_round": r"\bErr\b"},
}
"""What makes a want where it isn't called one: no slot, fewer replies than were asked for, the seats as they were."""
