"""The dashboard for Grafana: its form, and its queries."""

import json
import re

from harness.counting import ROOT

DASHBOARD = ROOT / "deploy/dashboard.json"
WIDTH = 24
"""How many columns Grafana's grid has."""
MEMBERS = {
    "title": str, "uid": str, "schemaVersion": int, "version": int, "editable": bool, "graphTooltip": int, "timezone": str,
    "refresh": str, "time": dict, "timepicker": dict, "annotations": dict, "links": list, "templating": dict, "panels": list, "tags": list,
}
OF_A_PANEL = {"id": int, "type": str, "title": str, "gridPos": dict, "datasource": dict, "fieldConfig": dict, "options": dict, "targets": list}
OF_A_TARGET = {"refId": str, "expr": str, "datasource": dict, "legendFormat": str}
KINDS = {"timeseries", "table"}
"""Members that a dashboard has, by Grafana's schema of dashboards, version 38, each with its type; and the kinds of panels used."""
EMPTY_WHERE_ALL_IS_WELL = re.compile(r"^ALERTS|> 0$|instance:mds_city_refused")
"""Queries that find nothing where nothing is wrong, or too little was asked."""
VARIABLES = {"$instance": ".*", "$__rate_interval": "2s"}
"""What Grafana puts in place of a variable."""


def board():
    return json.loads(DASHBOARD.read_text())


def queries():
    """Each query of the dashboard, with its panel's title."""
    for panel in board()["panels"]:
        for target in panel["targets"]:
            yield panel["title"], target["expr"]


def with_variables(text):
    for name, value in VARIABLES.items():
        text = text.replace(name, value)
    return text


def unlike(value, members, what):
    """Which of these members a value lacks, or has of another type."""
    for name, kind in members.items():
        if type(value.get(name)) is not kind:
            yield f"{what} has {name} {value.get(name)!r}"


def form_of_the_dashboard(_):
    """The dashboard has the members that Grafana's schema asks for. Its panels have numbers and places of their own, and their queries
    letters. Each variable that it uses is one of its own, or of Grafana's."""
    whole = board()
    yield from unlike(whole, MEMBERS, "the dashboard")
    taken = set()
    for panel in whole["panels"]:
        yield from unlike(panel, OF_A_PANEL, panel.get("title"))
        yield from (it for target in panel["targets"] for it in unlike(target, OF_A_TARGET, panel["title"]))
        letters = [target["refId"] for target in panel["targets"]]
        place = panel["gridPos"]
        cells = {(x, y) for x in range(place["x"], place["x"] + place["w"]) for y in range(place["y"], place["y"] + place["h"])}
        if taken & cells or max(x for x, _ in cells) >= WIDTH or len(letters) != len({*letters}) or panel["type"] not in KINDS:
            yield f"{panel['title']}: {place}, {letters}, {panel['type']}"
        taken |= cells
    numbers = [panel["id"] for panel in whole["panels"]]
    named = {variable["name"] for variable in whole["templating"]["list"]}
    used = set(re.findall(r"\$\{?(\w+)", DASHBOARD.read_text())) - {"__rate_interval", "__all"}
    if len({*numbers}) != len(numbers) or used != named:
        yield f"numbers {numbers}, variables {used} in place of {named}"


def queries_without_answer(watch):
    """Which queries of the dashboard this Prometheus doesn't take, or finds nothing for where all is well."""
    for title, text in queries():
        found = watch.query(with_variables(text))
        if not found and not EMPTY_WHERE_ALL_IS_WELL.search(text):
            yield f"{title}: {text} finds nothing"


DASHBOARDS = [form_of_the_dashboard]
