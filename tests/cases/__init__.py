"""The cases of tests/program, by subject."""

from cases.again import gates_opened_meanwhile
from cases.batches import batches, items
from cases.calls import CALLS
from cases.commands import commands, examples, orders, paths, spaced_paths, wrong_words
from cases.debugging import answers_each_line_at_a_terminal, goes_on_at_a_terminal, prints_the_same_at_a_terminal
from cases.debugging import faults, holds_little, long_sessions, reads_its_script_before_it_prints
from cases.debugging import reads_no_script_before_its_start, scripts, starts_before_its_script
from cases.depot import depots
from cases.events import events_of_a_vehicle, no_events_of_it, time_grows_with_the_lines
from cases.helps import help_asked_for, version_asked_for
from cases.inputs import input_that_stays_open, input_that_tells_enough
from cases.largest import largest
from cases.lines import line_files
from cases.opened import files_opened, pipes_and_devices, table_beside_a_journal
from cases.pictures import PICTURED
from cases.progress import tells_how_far_a_start_is, tells_how_far_it_is, tells_it_in_place
from cases.replays import replays
from cases.serve import journals_by_name, outputs_of_serve, ports, tables_of_serve, words_of_serve
from cases.streams import memory, output_that_ends_midway, streams
from cases.tables import table_files
from cases.timed import changing_tables, tables_files
from cases.unlimited import unlimited_lines
from cases.values import values
from cases.vehicles import journal_faults, journals, without_random_numbers
from cases.workers import workers

SUBJECTS = [
    examples,
    commands,
    help_asked_for,
    version_asked_for,
    wrong_words,
    paths,
    spaced_paths,
    orders,
    table_files,
    tables_files,
    changing_tables,
    depots,
    batches,
    items,
    values,
    replays,
    line_files,
    unlimited_lines,
    workers,
    journals,
    journal_faults,
    without_random_numbers,
    events_of_a_vehicle,
    no_events_of_it,
    scripts,
    long_sessions,
    largest,
    faults,
    pipes_and_devices,
    streams,
    memory,
    words_of_serve,
    journals_by_name,
    tables_of_serve,
    ports,
    outputs_of_serve,
]
"""What yields cases."""
INTERPLAYS = [
    starts_before_its_script,
    reads_no_script_before_its_start,
    reads_its_script_before_it_prints,
    answers_each_line_at_a_terminal,
    goes_on_at_a_terminal,
    prints_the_same_at_a_terminal,
    holds_little,
    input_that_stays_open,
    input_that_tells_enough,
    gates_opened_meanwhile,
    time_grows_with_the_lines,
    files_opened,
    table_beside_a_journal,
    output_that_ends_midway,
    tells_how_far_it_is,
    tells_how_far_a_start_is,
    tells_it_in_place,
    *CALLS,
    *PICTURED,
]
"""What runs the program by itself, or a tool, and says what is wrong."""
