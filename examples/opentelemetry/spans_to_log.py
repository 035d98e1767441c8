#!/usr/bin/env python3
"""Maps OpenTelemetry spans to a log of JSON lines, which `yehatu check` judges.

    ./spans_to_log.py TRACE.json > log.jsonl

TRACE.json is what the file exporter of the OpenTelemetry Collector writes (OTLP in JSON). The mapping:

    replica                the resource's attribute `service.instance.id`
    operation              the span's name: write, read, deliver ..
    object, value, stamp   the span's attributes `crdt.object`, `crdt.value`, `crdt.stamp`, and so on
    message                an update's span id; a span `deliver` has a link to the span of each update that it applies

A replica's spans are ordered by their start, which one clock measures. The clocks of replicas may differ.
"""
import json
import sys

PREFIX = "crdt."


def value_of(attribute):
    """The value of an attribute. OTLP writes whole numbers of 64 bits as strings."""
    (kind, value), = attribute.items()
    if kind == "arrayValue":
        return [value_of(it) for it in value.get("values", ())]
    return int(value) if kind == "intValue" else value


def attributes_of(thing):
    return {it["key"]: value_of(it["value"]) for it in thing.get("attributes", ())}


def spans_of(trace):
    """Each span with its replica."""
    for resource in trace["resourceSpans"]:
        replica = attributes_of(resource["resource"])["service.instance.id"]
        for scope in resource["scopeSpans"]:
            yield from ((replica, span) for span in scope["spans"])


def events_of(replica, span):
    """The lines of a span: one for each link of a delivery, and else one."""
    fields = {key[len(PREFIX) :]: it for key, it in attributes_of(span).items() if key.startswith(PREFIX)}
    event = {"replica": replica, "operation": span["name"], **fields, "span": span["spanId"]}
    if span["name"] == "deliver":
        yield from ({**event, "message": link["spanId"]} for link in span["links"])
    elif span["name"] == "read":
        # An attribute cannot be null: an unwritten register has none.
        yield {"value": None, **event}
    else:
        yield {**event, "message": span["spanId"]}


def main(path):
    with open(path, encoding="utf-8") as file:
        spans = sorted(spans_of(json.load(file)), key=lambda it: int(it[1]["startTimeUnixNano"]))
    for replica, span in spans:
        for event in events_of(replica, span):
            print(json.dumps(event))


if __name__ == "__main__":
    main(sys.argv[1])
