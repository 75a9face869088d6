"""Values of each kind in each place of a batch: whether the text is JSON, and the fault of the item that they stand in."""

from cases.replays import A, P, replayed
from harness.case import not_a_batch, started, told

# What stands for `%`, the members of a registration, and for `#`, the others that an event has to have.
KEY = f'"provider_id":"{P}","device_id":"{A}"'
OTHERS = '"event_id":"00000000-0000-4000-8000-0000000000e1","vehicle_state":"on_trip","event_types":["a"],"timestamp":0'

# A text of one item with `@` for a value; in how many lists and objects that lies; and the fault of the item as an event.
PLACES = [
    # no object, and an object of which nothing is asked for
    ("[@]", 1, "not_object"),
    ('{"x":@}', 1, "missing_param provider_id"),
    # members that are ignored
    ('{"x":@,%,#}', 1, None),
    ('{%,#,"location":@}', 1, None),
    ('[{%,"x":[0,{"provider_id":@}],#}]', 4, None),
    # members that are read
    ('{"device_id":@}', 1, "missing_param provider_id"),
    ('{%,#,"provider_id":@}', 1, "bad_param provider_id"),
    ('[{%,#,"device_id":@}]', 2, "bad_param device_id"),
    ('[{%,#,"event_id":@}]', 2, "bad_param event_id"),
    ('{%,#,"vehicle_state":@}', 1, "bad_param vehicle_state"),
    ('{%,#,"event_types":@}', 1, "bad_param event_types"),
    ('[{%,#,"event_types":["b",@,"c"]}]', 3, "bad_param event_types"),
    ('{%,#,"timestamp":@}', 1, "bad_param timestamp"),
    ('{%,#,"location_e7":@}', 1, "bad_param location_e7"),
    ('[{%,#,"location_e7":{"lat":@,"lng":0}}]', 3, "bad_param location_e7"),
    ('{%,#,"location_e7":{"lat":0,"lng":@}}', 2, "bad_param location_e7"),
    ('{%,#,"location_e7":{"lat":0,"x":@,"lng":0}}', 2, None),
]

# Values, with a bar between, of which no member has one in the form that it asks for.
VALUES = "|".join([
    'true|false|[]|[ ]|[0,[null,{"a":{}}]]|\t\n\r [ 1 ,\t2\n,{ "a" :\r1 } ] ',
    # numbers
    "-0|0.0|-0.0|0e0|1E+2|1e-2|0.5|1e308|-1e308|1e-400|-1e-400|0e999999999999",
    "9223372036854775807|9223372036854775808|-9223372036854775808|-9223372036854775809",
    "18446744073709551615|18446744073709551616",
    "1.7976931348623157e308|1.7976931348623158e308|-1.7976931348623158e308",
    # strings
    r'""|"\u0000"|"\"\\\/\b\f\n\r\t"|"\ud83d\ude00"|"\uDBFF\uDFFF\uFFFF\uD7FF\uE000"',
    r'''"[{,:'/*"|"\\"|"\\u0061"|"on_trip "''',
    '"\x7f\x80\u2028\uffff\U0010ffff"',
    # characters at the edges of how many bytes one takes, and of surrogates
    '"\x7f"|"\x80"|"\u07ff"|"\u0800"|"\ud7ff"|"\ue000"|"\U00010000"',
    '[{"\x7f\x80\u07ff\u0800\ud7ff\ue000\uffff\U00010000\U0010ffff":0}]',
]).split("|")

# What stands for no value, with a bar between. A number is none where the nearest double is infinite.
NO_VALUES = "|".join([
    # numbers
    "1e309|-1e309|1.7976931348623159e308|-1.7976931348623159e308|1e999999999999",
    "01|-01|00|1.|-1.|1.e1|.5|-.5|+1|-|--1|- 1|1e|1e+|1E-|1.2.3|1e1.5|1e2e3",
    "0x10|1_000|1a|1-|1+1|NaN|Infinity|-Infinity",
    # words
    "nul|nulll|True|FALSE|tru e|undefined|x",
    # strings
    r'"\ud800"|"\udc00"|"\ude00\ud83d"|"\ud83d\ud83d\ude00"|"\ud83d\u0041"|"\ud83dx"|"\ud83d\n"',
    r'''"\u12"|"\u12g4"|"\u+123"|"\U0041"|"\x41"|"\a"|"\'"|"\0"|"a|a"|"a\"|"\"|"a" "b"''',
    "'a'",
    '"\0"|"\t"|"\n"|"\x1f"',
    # lists
    '[|]|[1,]|[,1]|[1,,2]|[1 2]|[1;2]|[1:2]|["a":1]|[1}|[1]]',
    # objects, comments and blanks
    '{"a":1,}|{,"a":1}|{"a"}|{"a" 1}|{"a":1 "b":2}|{a:1}|1/**/',
    "\ufeff1",
]).split("|")


def text_at(place, value):
    """The text of this value in this place."""
    return place.replace("%", KEY).replace("#", OTHERS).replace("@", value)


def verdicts_of(faults):
    """What a replay says of items with these faults: an event without one has a type that no table has."""
    return [f"fault {fault}" if fault else "refused no_chain removed 0" for fault in faults]


def ends(faults):
    """The vehicle, if one of the items with these faults has none."""
    return [] if all(faults) else [(A, "removed", 0)]


def items_at(place):
    """The items of one batch that have each of the values in this place."""
    one = place[1:-1] if place.startswith("[") else place
    return [text_at(one, value) for value in VALUES]


def nested(levels):
    """A value of so many levels, lists and objects by turns."""
    middle = "[0]" if levels % 2 else "0"
    return '[{"a":' * (levels // 2) + middle + "}]" * (levels // 2)


def values():
    """Values, and what is none, in each place; and the deepest values there."""
    for place, outer, fault in PLACES:
        faults = [fault] * len(VALUES)
        yield replayed(f"[{','.join(items_at(place))}]", verdicts_of(faults), ends(faults), name=f"values at {place}")
        for value in NO_VALUES:
            text = text_at(place, value)
            yield told("replay -", not_a_batch("not_json"), given=text, name=started(text))
        for levels in (126, 127):
            text = text_at(place, nested(levels - outer))
            yield replayed(text, verdicts_of([fault]), ends([fault]), name=f"{levels} levels at {place}")
        for levels in (128, 129):
            text = text_at(place, nested(levels - outer))
            yield told("replay -", not_a_batch("not_json"), given=text, name=f"{levels} levels at {place}")


def as_registrations():
    """The items of all places as registrations, and the fault of each: a registration has the first two members alone."""
    for place, _, fault in PLACES:
        is_asked_for = fault in ("not_object", "missing_param provider_id", "bad_param provider_id", "bad_param device_id")
        for text in items_at(place):
            yield text, fault if is_asked_for else None
