"""What help says, whole: the texts of the commands and of their words, in the layout of `clap`; and the version."""

import re

from harness.case import NO_STREAMS, OUTPUT, Case, told
from harness.counting import ROOT

ALL = """Keeps the states of shared vehicles

Usage: mds_city <COMMAND>

Commands:
  serve     Serves vehicles over HTTP at 127.0.0.1
  replay    Replays the events of a file
  debug     Steps through the accepted events of a vehicle, as standard input says
  table     Prints the table of transitions, or each of several
  vehicles  Lists the vehicles of a journal
  compact   Makes a new journal of an old one, without old events that no state needs, or events to be cut
  events    Prints the lines of a journal that tell an event of a vehicle
  help      Print this message or the help of the given subcommand(s)

Options:
  -h, --help     Print help
  -V, --version  Print version
"""
SERVE = """Serves vehicles over HTTP at 127.0.0.1

Usage: mds_city serve [OPTIONS] --port <N>

Options:
      --port <N>        The port's number; 0 is a free one
      --each <N>        How many connections each worker answers
      --until-stopped   Goes on until the process is stopped, in place of --each
      --workers <N>     How many workers there are [default: 4]
      --table <FILE>    A table of transitions, or several with times; without it the profile's
      --journal <FILE>  A journal of what is accepted; without it that ends with the process
      --metrics <N>     A port of its own, at which figures are told, and readiness
  -h, --help            Print help
"""
REPLAY = """Replays the events of a file

Usage: mds_city replay [OPTIONS] <FILE>

Arguments:
  <FILE>  The file of events; - is standard input

Options:
      --table <FILE>  A table of transitions, or several with times; without it the profile's
      --any           Lets a vehicle hold any state before its first event
      --lines         Takes each line of the file as an item
      --unlimited     Takes lines without the limits of a batch
      --workers <N>   How many workers there are [default: 1]
  -h, --help          Print help
"""
DEBUG = """Steps through the accepted events of a vehicle, as standard input says

Usage: mds_city debug [OPTIONS] <FILE> <PROVIDER> <DEVICE>

Arguments:
  <FILE>      The file of events
  <PROVIDER>  The provider's identifier
  <DEVICE>    The vehicle's identifier

Options:
      --table <FILE>  A table of transitions, or several with times; without it the profile's
  -h, --help          Print help
"""
TABLE = """Prints the table of transitions, or each of several

Usage: mds_city table [OPTIONS]

Options:
      --table <FILE>  A table of transitions, or several with times; without it the profile's
  -h, --help          Print help
"""
VEHICLES = """Lists the vehicles of a journal

Usage: mds_city vehicles [OPTIONS] <FILE>

Arguments:
  <FILE>  The journal; - is standard input

Options:
      --table <FILE>  A table of transitions, or several with times; without it the profile's
      --check         Tells how many lines and groups there are, too
  -h, --help          Print help
"""
COMPACT = """Makes a new journal of an old one, without old events that no state needs, or events to be cut

Usage: mds_city compact [OPTIONS] <OLD> <NEW>

Arguments:
  <OLD>  The journal, which stays as it is
  <NEW>  The file to make

Options:
      --before <TIME>                The time from which on all events stay, in milliseconds since 1970; without it all do
      --cut <PROVIDER> <DEVICE> <N>  A vehicle of which the first N events alone stay; may be given again
      --follow                       Goes on with what comes meanwhile, until no server has OLD
      --table <FILE>                 A table of transitions, or several with times, by which OLD is judged first
  -h, --help                         Print help
"""
EVENTS = """Prints the lines of a journal that tell an event of a vehicle

Usage: mds_city events <FILE> <PROVIDER> <DEVICE>

Arguments:
  <FILE>      The journal; - is standard input
  <PROVIDER>  The provider's identifier
  <DEVICE>    The vehicle's identifier

Options:
  -h, --help  Print help
"""
HELP = """Print this message or the help of the given subcommand(s)

Usage: mds_city help [COMMAND]...

Arguments:
  [COMMAND]...  Print help for the subcommand(s)
"""
COMMANDS = {"serve": SERVE, "replay": REPLAY, "debug": DEBUG, "table": TABLE, "vehicles": VEHICLES, "compact": COMPACT, "events": EVENTS}


def help_asked_for():
    """Help, which goes to standard output, in each way to ask for it."""
    for words in ("--help", "-h", "help"):
        yield Case(words, out=ALL)
    yield Case("help help", out=HELP)
    for command, out in COMMANDS.items():
        for words in (f"help {command}", f"{command} --help", f"{command} -h"):
            yield Case(words, out=out)
    yield Case("replay events.json --help", out=REPLAY)
    yield Case("serve --port 0 --each 0 --help", out=SERVE)
    for stdout in NO_STREAMS:
        for words in ("--help", "help serve", "debug -h", "--version"):
            yield told(words, OUTPUT, stdout=stdout)
            yield told(words, "", stdout=stdout, stderr="/dev/full")


def version_asked_for():
    """The version, which is the newest that CHANGELOG.md tells of."""
    newest = re.search(r"^## (\S+)", (ROOT / "CHANGELOG.md").read_text(), re.M).group(1)
    for words in ("--version", "-V", "--version serve"):
        yield Case(words, out=f"mds_city {newest}\n")
