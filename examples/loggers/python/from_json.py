"""Makes a log without clocks of JSON lines: python3 from_json.py < events.jsonl > run.log"""
import json, sys
from potalog import name_of

events, order, first_values, messages = [], {}, {}, {}
for event in map(json.loads, sys.stdin):
    me, other = name_of(event["process"]), name_of(event.get("to", event.get("from", "")))
    order.update({name: None for name in (me, other) if name})
    first_values.setdefault(me, {}).update({name: 0 for name in event.get("set", {})})
    end = ("send", other, me) if "to" in event else ("recv", other, me) if "from" in event else ()
    message = messages.setdefault(event.get("id"), {"number": len(messages) + 1})
    kind = f"{end[0]} {other} {message['number']}" if end and end not in message else "int"
    message[end] = True  # what is sent again, or received again, is an internal event
    values = "".join(f" {name}={int(value)}" for name, value in event.get("set", {}).items())
    events.append(f"ev {me} ~ {kind}{values}")
heads = ["pota-log 2", "procs " + " ".join(order)]
with_variables = [process for process in order if first_values.get(process)]
heads += [f"vars {p} " + " ".join(f"{name}=0" for name in first_values[p]) for p in with_variables]
print("\n".join(heads + events + ["end"]))
