# Brings events of the Mobility Data Specification (MDS) 2.0 to a batch of this server's, by jq 1.6. docs/mds.md says what is
# lost.
#
#   jq -c -f deploy/mds2profile.jq < FILE                          the events
#   jq -c --arg registrations 1 -f deploy/mds2profile.jq < FILE    the registrations of the vehicles that they name, each once
#   jq -c -s -f deploy/mds2profile.jq FILE FILE                    the events of several files, as one batch
#
# FILE has an event, a list of them, or a payload: an object whose member `events`, or that of its `data`, is a list of them.
#
# - Taken over as they are: provider_id, device_id, event_id, vehicle_state, event_types, timestamp. An event that lacks one
#   lacks it here too, and what is no object stays what it is, so the server tells the fault of each.
# - `location` becomes `location_e7`, unless there is one already: the standard's GPS object, or a point of GeoJSON. A number is
#   rounded to the nearest ten-millionth of a degree, and a half goes away from 0. Nothing is cut off at a pole or at the date
#   line. What isn't a number stays what it is, and the server tells the fault.
# - Every other member is left out.

# The events of a value, in order.
def events:
  if type == "array" then .[] | events
  elif type == "object" and (.events | type) == "array" then .events | events
  elif type == "object" and (.data | type) == "object" and (.data.events | type) == "array" then .data.events | events
  else .
  end;

# A number of degrees as a whole number of ten-millionths. The product may be off in its last place, so the half next to it is
# brought back to degrees. That quotient is the very number that jq makes of the half's decimals.
def ten_millionths:
  if type != "number" then .
  else
    fabs as $size
    | ($size * 10000000 | floor) as $below
    | (if $size >= ($below + 0.5) / 10000000 then $below + 1 else $below end) as $nearest
    | if . < 0 then 0 - $nearest else $nearest end
  end;

# The GPS object of a point of GeoJSON, whose longitude comes first. Anything else stays what it is.
def unwrapped:
  if type != "object" then .
  elif .type == "Feature" then .geometry | unwrapped
  elif .type == "Point" and (.coordinates | type) == "array" then {lat: .coordinates[1], lng: .coordinates[0]}
  else .
  end;

def in_ten_millionths:
  unwrapped
  | if type == "object" then with_entries(select(.key == "lat" or .key == "lng") | .value |= ten_millionths) else . end;

def with_position:
  if .location_e7 == null and .location != null then .location_e7 = (.location | in_ten_millionths) else . end;

# An event with the members that the server asks for, as far as it has them.
def item:
  if type != "object" then .
  else
    with_position as $event
    | reduce ("provider_id", "device_id", "event_id", "vehicle_state", "event_types", "timestamp", "location_e7") as $name
        ({}; if $event | has($name) then .[$name] = $event[$name] else . end)
  end;

# The vehicles of a list of events, in the order of their identifiers, whose letters may be of either case.
def vehicles:
  map(select(type == "object" and (.provider_id | type) == "string" and (.device_id | type) == "string"))
  | map({provider_id, device_id})
  | unique_by([.provider_id, .device_id | ascii_downcase]);

[events | item] | if $ARGS.named.registrations == "1" then vehicles else . end
