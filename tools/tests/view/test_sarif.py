"""SARIF: the rules of version 2.1.0 and of code hosts, one by one, and what is in it."""

import json
import os
import re

import pytest
from viewing import (
    EXAMPLE,
    HOSTILE,
    OTHER,
    SOURCE,
    edge,
    hostile_report,
    page_with_source,
    pair,
    read,
    report,
    ring,
    view,
    write,
)

# --- The rules ----------------------------------------------------------------------------------------


def keys(value, required, allowed=()):
    """An object with these properties alone, as the schema's `required` and `additionalProperties: false` ask."""
    assert type(value) is dict
    assert set(required) - value.keys() == set()
    assert value.keys() - set(required) - set(allowed) == set()


def is_text(value, most=None):
    assert type(value) is str
    assert value != ""
    assert most is None or len(value) <= most


def is_message(value):
    keys(value, {"text"})
    is_text(value["text"])


def is_whole(value, least):
    assert type(value) is int
    assert value >= least


def is_absolute_uri(value):
    """`format: uri` of the schema: a scheme, and no character that a URI can't have."""
    assert re.fullmatch(r"[a-z][a-z0-9+.-]*:[A-Za-z0-9%._~:/?#@!$&'()*+,;=-]+", value)


def is_uri_reference(value):
    """`format: uri-reference`, as the tool writes it: file names in it are percent-encoded, and none leads upwards."""
    assert re.sub(r"%[0-9A-F]{2}|[A-Za-z0-9._~/-]", "", value.replace("file:///", "", 1)) == ""
    assert ".." not in value.split("/")


def is_region(region):
    """A line with columns in it; an end isn't before its start."""
    keys(region, {"startLine"}, {"startColumn", "endLine", "endColumn"})
    for number in region.values():
        is_whole(number, 1)
    assert region.get("endLine", region["startLine"]) == region["startLine"]
    assert region.get("endColumn", 1 << 31) > region.get("startColumn", 1)


def is_location(value):
    keys(value, (), {"id", "physicalLocation", "logicalLocations", "message"})
    if "id" in value:
        is_whole(value["id"], 1)
    if "message" in value:
        is_message(value["message"])
    for logical in value.get("logicalLocations", []):
        keys(logical, {"fullyQualifiedName"}, {"name", "kind"})
        assert ("name" in logical, logical.get("kind", "function")) == ("kind" in logical, "function")
        is_text(logical["fullyQualifiedName"])
    if "physicalLocation" in value:
        physical = value["physicalLocation"]
        keys(physical, {"artifactLocation"}, {"region", "address"})
        keys(physical["artifactLocation"], {"uri"})
        is_uri_reference(physical["artifactLocation"]["uri"])
        if "region" in physical:
            is_region(physical["region"])
        if "address" in physical:
            keys(physical["address"], {"relativeAddress"})
            is_whole(physical["address"]["relativeAddress"], 0)


def is_rule(rule):
    required = {
        "id",
        "name",
        "shortDescription",
        "fullDescription",
        "help",
        "helpUri",
        "defaultConfiguration",
        "properties",
    }
    keys(rule, required)
    is_text(rule["id"], 255)
    assert re.fullmatch("[A-Z][A-Za-z0-9]*", rule["name"])  # an identifier, as code hosts ask
    is_text(rule["name"], 255)
    for key in ("shortDescription", "fullDescription"):
        is_message(rule[key])
        is_text(rule[key]["text"], 1024)
    keys(rule["help"], {"text", "markdown"})  # markdown is allowed only beside text
    is_text(rule["help"]["text"])
    is_text(rule["help"]["markdown"])
    is_absolute_uri(rule["helpUri"])
    assert rule["defaultConfiguration"] == {"level": "warning"}
    tags = rule["properties"]["tags"]
    assert len(tags) == len(set(tags)) <= 10
    assert rule["properties"]["precision"] in ("very-high", "high", "medium", "low")
    assert rule["properties"]["problem.severity"] in ("error", "warning", "recommendation")


def links_of(text):
    """The numbers of the related locations that a message links to; other brackets are escaped."""
    assert (
        re.sub(
            r"(?<!\\)\[((?:[^\[\]]|\\[\[\]])*)(?<!\\)\]\((\d+)\)", "", text.replace("\\[", "").replace("\\]", "")
        ).count("[")
        == 0
    )
    return [int(number) for number in re.findall(r"(?<!\\)\]\((\d+)\)", text)]


def is_flow(flow):
    keys(flow, {"id", "locations"})
    is_text(flow["id"])
    assert len(flow["locations"]) == 2
    for step in flow["locations"]:
        keys(step, {"location"}, {"stack"})
        is_location(step["location"])
        is_message(step["location"]["message"])
        for frame in step.get("stack", {"frames": []})["frames"]:
            keys(frame, {"location"})
            is_location(frame["location"])


def is_result(result, rules):
    required = {"ruleId", "ruleIndex", "level", "message", "locations", "relatedLocations", "partialFingerprints"}
    keys(result, required | {"codeFlows", "occurrenceCount"}, {"suppressions", "properties"})
    assert result["ruleId"] == rules[result["ruleIndex"]]["id"]
    assert result.get("properties", {"confirmed": True}) == {"confirmed": True}
    assert result["level"] == ("error" if "properties" in result else "warning")
    is_message(result["message"])
    # Code hosts refuse a result that isn't in a file, and show the first location alone.
    assert len(result["locations"]) == 1
    assert "physicalLocation" in result["locations"][0]
    for value in result["locations"] + result["relatedLocations"]:
        is_location(value)
    for related in result["relatedLocations"]:
        assert {"id", "physicalLocation", "message"} - related.keys() == set()
    numbers = [related["id"] for related in result["relatedLocations"]]
    assert len(numbers) == len(set(numbers))
    # Code hosts show a related location where the message links to it.
    assert set(links_of(result["message"]["text"])) <= set(numbers)
    is_whole(result["occurrenceCount"], 1)
    prints = result["partialFingerprints"]
    keys(prints, {"goodlockFinding/v1", "primaryLocationLineHash"})
    assert re.fullmatch("[0-9a-f]{16}", prints["goodlockFinding/v1"])
    assert prints["primaryLocationLineHash"] == prints["goodlockFinding/v1"] + ":1"
    assert len(result["codeFlows"]) == 1
    keys(result["codeFlows"][0], {"threadFlows"})
    for flow in result["codeFlows"][0]["threadFlows"]:
        is_flow(flow)
    for suppression in result.get("suppressions", []):
        assert suppression == {"kind": "external", "status": "accepted"}


def is_run(run):
    keys(run, {"tool", "automationDetails", "columnKind", "invocations", "results"})
    assert run["columnKind"] == "utf16CodeUnits"
    keys(run["tool"], {"driver"})
    driver = run["tool"]["driver"]
    keys(driver, {"name", "version", "informationUri", "rules"})
    assert driver["name"] == "goodlock"
    assert re.fullmatch(r"[0-9]+\.[0-9]+\.[0-9]+", driver["version"])
    is_absolute_uri(driver["informationUri"])
    for rule in driver["rules"]:
        is_rule(rule)
    names = [rule["id"] for rule in driver["rules"]]
    assert len(names) == len(set(names))
    keys(run["automationDetails"], {"id"})
    assert re.fullmatch(r"[A-Za-z0-9._-]+/", run["automationDetails"]["id"])  # a category, without a run's own name
    (invocation,) = run["invocations"]
    keys(invocation, {"executionSuccessful"}, {"toolExecutionNotifications"})
    assert invocation["executionSuccessful"] is True
    for note in invocation.get("toolExecutionNotifications", []):
        keys(note, {"message", "level"})
        is_message(note["message"])
        assert note["level"] in ("none", "note", "warning", "error")
    for result in run["results"]:
        is_result(result, driver["rules"])
    prints = [result["partialFingerprints"]["goodlockFinding/v1"] for result in run["results"]]
    assert len(prints) == len(set(prints))


def sarif(path="s.sarif"):
    """The one run of a file that keeps the rules."""
    text = read(path)
    assert len(text.encode()) < 10_000_000  # what code hosts take, before it is packed
    value = json.loads(text)
    keys(value, {"$schema", "version", "runs"})
    is_absolute_uri(value["$schema"])
    assert value["version"] == "2.1.0"
    (run,) = value["runs"]
    is_run(run)
    return run


def results(path="s.sarif"):
    return sarif(path)["results"]


def uri(place):
    return place["physicalLocation"]["artifactLocation"]["uri"]


RULE_BREAKERS = [
    ("a key that the schema doesn't have", lambda run: run["results"][0].update(extra=1)),
    ("a driver without a version", lambda run: run["tool"]["driver"].pop("version")),
    ("a version that is none", lambda run: run["tool"]["driver"].update(version="new")),
    ("a URI that isn't absolute", lambda run: run["tool"]["driver"].update(informationUri="docs/page")),
    ("a category without its slash", lambda run: run["automationDetails"].update(id="goodlock")),
    ("help with markdown alone", lambda run: run["tool"]["driver"]["rules"][0]["help"].pop("text")),
    ("a rule twice", lambda run: run["tool"]["driver"]["rules"].append(run["tool"]["driver"]["rules"][0])),
    ("a result of another rule", lambda run: run["results"][0].update(ruleId="other")),
    ("a level of its own", lambda run: run["results"][0].update(level="fatal")),
    ("no place", lambda run: run["results"][0].update(locations=[])),
    ("a place in no file", lambda run: run["results"][0]["locations"][0].pop("physicalLocation")),
    ("line 0", lambda run: run["results"][0]["locations"][0]["physicalLocation"]["region"].update(startLine=0)),
    ("an end before its start", lambda run: run["results"][0]["locations"][0]["physicalLocation"]["region"].update(startColumn=9, endColumn=3)),
    ("a file above the repository", lambda run: run["results"][0]["locations"][0]["physicalLocation"]["artifactLocation"].update(uri="../a.c")),
    ("a link to no place", lambda run: run["results"][0]["message"].update(text="see [here](99)")),
    ("a bracket that isn't escaped", lambda run: run["results"][0]["message"].update(text="see [here")),
    ("a related place without a message", lambda run: run["results"][0]["relatedLocations"][0].pop("message")),
    ("a number twice", lambda run: run["results"][0]["relatedLocations"][0].update(id=2)),
    ("a step without a message", lambda run: run["results"][0]["codeFlows"][0]["threadFlows"][0]["locations"][0]["location"].pop("message")),
    ("two results with one fingerprint", lambda run: run["results"].append(run["results"][0])),
    ("a fingerprint that is none", lambda run: run["results"][0]["partialFingerprints"].update({"goodlockFinding/v1": "7"})),
]  # fmt: skip


@pytest.mark.parametrize("change", [change for _, change in RULE_BREAKERS], ids=[name for name, _ in RULE_BREAKERS])
def test_each_rule_of_this_page_refuses_what_breaks_it(change):
    write("r.json", report(pair(places=("a.c:1", "a.c:2", "b.c:1", "b.c:2"))))
    view("r.json", "--sarif", "s.sarif")
    run = sarif()
    change(run)
    with pytest.raises((AssertionError, KeyError)):
        is_run(run)


# --- What is in it ------------------------------------------------------------------------------------


def test_the_example_with_files():
    places = ("net/a.c:10", "net/a.c:11:7", "/abs/b.c:20<m.c:7<libc.so+0x1f", "../../up/b.c:21")
    write("r.json", report(pair(places=places)))
    view("r.json", "--sarif", "s.sarif")
    (result,) = results()
    text = "T0 holds a since [net/a.c:10](1) wants b at [net/a.c:11:7](2); T1 holds b since [/abs/b.c:20<m.c:7<libc.so+0x1f](3)"
    assert text in result["message"]["text"]
    region = {"startLine": 11, "startColumn": 7}
    assert result["locations"][0]["physicalLocation"] == {"artifactLocation": {"uri": "net/a.c"}, "region": region}
    uris = ["net/a.c", "net/a.c", "file:///abs/b.c", "up/b.c"]
    assert [uri(place) for place in result["relatedLocations"]] == uris
    first, second = result["codeFlows"][0]["threadFlows"]
    assert (first["id"], second["id"]) == ("T0", "T1")
    assert first["locations"][0]["location"]["message"]["text"] == "T0 acquires a and holds it"
    assert first["locations"][1]["location"]["message"]["text"] == "T0 wants b"
    frames = [frame["location"] for frame in second["locations"][0]["stack"]["frames"]]
    assert [uri(frame) for frame in frames] == ["file:///abs/b.c", "m.c", "libc.so"]
    assert frames[2]["physicalLocation"]["address"] == {"relativeAddress": 31}


def test_the_driver_says_what_made_it_and_the_rule_how_to_mend_it():
    write("r.json", EXAMPLE)
    view("r.json", "--sarif", "s.sarif")
    run = sarif()
    assert view("--version")[1] == f"goodlock-view {run['tool']['driver']['version']}\n"
    assert run["automationDetails"] == {"id": "goodlock/"}
    help_ = run["tool"]["driver"]["rules"][0]["help"]
    assert "- take the locks in the same order everywhere" in help_["markdown"]
    assert "same order everywhere" in help_["text"]


def test_files_of_one_run_may_be_told_apart_by_a_category():
    write("r.json", EXAMPLE)
    view("r.json", "--sarif", "s.sarif", "--category", "goodlock-arm64")
    assert sarif()["automationDetails"] == {"id": "goodlock-arm64/"}


def test_files_are_named_as_they_lie_below_the_source_directory():
    write("src/net/server.c", SOURCE)
    for source, expected in (("src", "src/net/server.c"), (os.path.abspath("src"), "net/server.c"),
                             ("./src/", "src/net/server.c"), (".", "src/net/server.c")):  # fmt: skip
        page_with_source("/build/net/server.c:10", "/build/other.c:11", "1", "2", source=source)
        (result,) = results()
        assert [uri(place) for place in result["relatedLocations"]] == [expected, "file:///build/other.c"]


def test_a_line_of_source_is_a_region_in_a_function():
    write("src/a.c", "static int\nserve(struct s *s)\n{\n\tlock(é𝄞); \n}\n")
    page_with_source("a.c:4", "a.c:4:7", "1", "2")
    (result,) = results()
    held, wanted = result["relatedLocations"]
    # The tab is the first column, é has one in UTF-16 and 𝄞 has two; the blank at the end isn't text.
    whole = {"startLine": 4, "startColumn": 2, "endLine": 4, "endColumn": 12}
    assert held["physicalLocation"]["region"] == whole
    assert wanted["physicalLocation"]["region"] == dict(whole, startColumn=7)
    assert held["logicalLocations"] == [{"name": "serve", "fullyQualifiedName": "serve", "kind": "function"}]


def test_without_a_file_a_result_is_in_the_module_or_the_report():
    write("out/r 1.json", report(pair()))
    view("out/r 1.json", "--sarif", "s.sarif")
    (result,) = results()
    assert (uri(result["locations"][0]), result["relatedLocations"]) == ("out/r%201.json", [])
    write("r.json", report(pair(places=("lib:a.so+0x10", "lib:a.so+0x1f", "x", "b.c:5"))))
    view("r.json", "--sarif", "s.sarif")
    (result,) = results()
    assert uri(result["locations"][0]) == "b.c"  # a file is preferred to a module
    assert [uri(place) for place in result["relatedLocations"]] == ["lib%3Aa.so", "lib%3Aa.so", "b.c"]


def test_hostile_names_make_no_link_and_no_placeholder():
    write("r.json", hostile_report())
    assert view("r.json", "--sarif", "s.sarif")[0] == 1
    texts = [result["message"]["text"] for result in results()]
    assert len(texts) == len(HOSTILE)
    (link,) = [text for text in texts if "evil.example" in text]
    assert "\\[link\\](http://evil.example/) {{0}} {{{{1}}}}" in link
    assert [text for text in texts if links_of(text) and "passwd:1" not in text] == []  # only that place is a line
    assert max(len(text) for text in texts) < 1000
    assert all(ord(c) < 127 for c in read("s.sarif"))


def test_a_place_with_brackets_is_a_link_with_escaped_brackets():
    write("r.json", report(pair(places=("a[1].c:5", "x", "y", "z"))))
    view("r.json", "--sarif", "s.sarif")
    assert "since [a\\[1\\].c:5](1) wants b at x;" in results()[0]["message"]["text"]


def test_a_long_cycle_has_all_its_flows_and_a_message_that_ends():
    locks = [f"lock{i}" for i in range(60)]
    cycle = [edge(f"T{i}", locks[i], f"a.c:{i + 1}", locks[(i + 1) % 60], f"b.c:{i + 1}") for i in range(60)]
    write("r.json", report(cycle, length=100))
    view("r.json", "--sarif", "s.sarif")
    (result,) = results()
    assert len(result["codeFlows"][0]["threadFlows"]) == 60
    assert len(result["relatedLocations"]) == 100
    assert "; and 52 threads more. 1 cycle of the reports is this." in result["message"]["text"]


def test_one_result_for_each_finding():
    write("r.json", report(ring("abcd", "f.c:1", "f.c:2"), ring("abc", "f.c:1", "f.c:2"), pair(places=OTHER)))
    view("r.json", "--sarif", "s.sarif")
    assert sorted(result["occurrenceCount"] for result in results()) == [1, 2]


def test_known_findings_are_suppressed():
    write("r.json", report(pair(), pair(places=OTHER)))
    write("known", '[["1","2"],["5","6"]]\n')
    view("r.json", "--sarif", "s.sarif", "--known", "known")
    accepted = [{"kind": "external", "status": "accepted"}]
    assert [result["suppressions"] for result in results()] == [[], accepted]
    view("r.json", "--sarif", "s.sarif")
    assert ["suppressions" in result for result in results()] == [False, False]


def test_without_findings_there_is_an_empty_list():
    write("r.json", report())
    assert view("r.json", "--sarif", "s.sarif")[0] == 0
    assert results() == []


def test_no_more_results_than_code_hosts_take():
    write("r.json", report(*(pair(places=(f"f.c:{i}", "2", "3", "4")) for i in range(1, 5_003)), most=6_000))
    view("r.json", "--sarif", "s.sarif")
    run = sarif()
    assert len(run["results"]) == 5_000
    notes = run["invocations"][0]["toolExecutionNotifications"]
    assert notes[0]["message"]["text"] == "2 more findings are left out of this file"
