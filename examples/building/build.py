#!/usr/bin/env python3
"""Builds the wire sheet of the building, two rooms that one boiler heats: python3 build.py --help

It is built over a node that runs, by examples/client, or into records, which `sedona replay` does."""
import argparse
import pathlib
import sys

HERE = pathlib.Path(__file__).resolve().parent
sys.path.insert(0, str(HERE.parent / "client"))

import client  # noqa: E402 - from examples/client
import named  # noqa: E402
import record  # noqa: E402
import schema  # noqa: E402
import wire  # noqa: E402

KITS = [HERE / f"{name}.toml" for name in ("logic", "timing", "math", "house")]
SECOND = 1000000000  # nanoseconds
USER, PASSWORD, SECRET = "ann", "secret", b"\x01" * 20

# A room: when it is to be warm, in minutes of the day, and how warm, in tenths of a degree.
ROOMS = (
    ("living", dict(on1=360, off1=540, on2=960, off2=1320), dict(off=170, on=210)),
    ("bedroom", dict(on1=390, off1=480, on2=1230, off2=1350), dict(off=160, on=190)),
)

# What is common, and what belongs to the boiler, in the order in which it is executed.
COMMON = (
    ("clock", "timing::Clock", dict(begin=330)),
    ("sensor", "house::Sensor", {}),
    ("outside", "math::Scale", dict(num=1, den=1, offset=-500)),
    ("curve", "math::HeatingCurve", dict(x1=-150, y1=700, x2=150, y2=350)),
    ("limit", "math::Limit", dict(low=350, high=650)),
)
OF_ROOM = (
    ("times", "timing::DaySchedule"), ("wanted", "math::Select"), ("pi", "math::PI"),
    ("valve", "math::Ramp"), ("room", "house::Room"),
)
OF_BOILER = (
    ("most", "math::Max2", {}),
    ("call", "math::Hysteresis", dict(on=100, off=50)),
    ("wait", "timing::OnDelay", dict(seconds=120)),
    ("after", "timing::OffDelay", dict(seconds=300)),
    ("error", "math::Sub2", {}),
    ("cold", "math::Hysteresis", dict(on=-30, off=30)),
    ("hot", "math::Hysteresis", dict(on=900, off=800)),
    ("alarm", "logic::Latch", {}),
    ("safe", "logic::Not", {}),
    ("ask", "logic::And2", {}),
    ("burn", "logic::And2", {}),
    ("load", "math::Add2", {}),
    ("boiler", "house::Boiler", dict(power=60)),
)
LINKS = (
    ("common/sensor.raw", "common/outside.in"),
    ("common/outside.out", "common/curve.in"),
    ("common/curve.out", "common/limit.in"),
    ("living/valve.out", "boiler/most.in1"),
    ("bedroom/valve.out", "boiler/most.in2"),
    ("boiler/most.out", "boiler/call.in"),
    ("boiler/call.out", "boiler/wait.in"),
    ("boiler/call.out", "boiler/after.in"),
    ("boiler/boiler.flow", "boiler/error.in1"),
    ("common/limit.out", "boiler/error.in2"),
    ("boiler/error.out", "boiler/cold.in"),
    ("boiler/boiler.flow", "boiler/hot.in"),
    ("boiler/hot.out", "boiler/alarm.set"),
    ("boiler/alarm.out", "boiler/safe.in"),
    ("boiler/wait.out", "boiler/ask.in1"),
    ("boiler/cold.out", "boiler/ask.in2"),
    ("boiler/ask.out", "boiler/burn.in1"),
    ("boiler/safe.out", "boiler/burn.in2"),
    ("living/valve.out", "boiler/load.in1"),
    ("bedroom/valve.out", "boiler/load.in2"),
    ("boiler/burn.out", "boiler/boiler.burner"),
    ("boiler/after.out", "boiler/boiler.pump"),
    ("boiler/load.out", "boiler/boiler.load"),
)
LINKS_OF_ROOM = (
    ("common/clock.minute", "{}/times.minute"),
    ("{}/times.out", "{}/wanted.in"),
    ("{}/wanted.out", "{}/pi.setpoint"),
    ("{}/room.temp", "{}/pi.in"),
    ("{}/pi.out", "{}/valve.in"),
    ("common/outside.out", "{}/room.outside"),
    ("boiler/boiler.flow", "{}/room.flow"),
    ("{}/valve.out", "{}/room.valve"),
)


def build(sheet):
    """Adds all components, a folder before what is in it, and then the links."""
    sheet.add("common", "sys::Folder")
    for name, type_name, config in COMMON:
        sheet.add(f"common/{name}", type_name, **config)
    for room, times, wanted in ROOMS:
        sheet.add(room, "sys::Folder")
        given = {"times": times, "wanted": wanted, "pi": dict(gain=40, reset=3600), "valve": dict(rate=400)}
        for name, type_name in OF_ROOM:
            sheet.add(f"{room}/{name}", type_name, **given.get(name, {}))
    sheet.add("boiler", "sys::Folder")
    for name, type_name, config in OF_BOILER:
        sheet.add(f"boiler/{name}", type_name, **config)
    for room, _, _ in ROOMS:
        for source, target in LINKS_OF_ROOM:
            sheet.link(source.format(room), target.format(room))
    for source, target in LINKS:
        sheet.link(source, target)


def ticks(recorder, begin, end):
    """A tick each ten seconds, behind `begin` up to `end`, in seconds."""
    for second in range(begin + 10, end + 10, 10):
        recorder.tick(second * SECOND)


def morning(kits):
    """The sheet is built and saved at 5:30; at 7:30 it gets colder outside; the last tick is at 8:30."""
    recorder = record.Recorder(USER, PASSWORD, SECRET)
    sheet = named.Named(recorder, kits)
    build(sheet)
    recorder.save()
    ticks(recorder, 0, 7200)
    sheet.write("common/sensor.raw", 450)
    ticks(recorder, 7200, 10800)
    return recorder.whole()


def trouble(kits, is_mended=False):
    """Behind the morning's save: the clock is set to 7:00, the boiler overheats, a wrong value makes a fault; and
    where it is mended, twenty seconds more."""
    recorder = record.Recorder(USER, PASSWORD, SECRET)
    sheet = named.Named(recorder, kits)
    sheet.known = built(kits).known
    sheet.invoke("common/clock.adjust", 420)
    ticks(recorder, 0, 180)
    sheet.write("boiler/boiler.flow", 905)
    ticks(recorder, 180, 190)
    sheet.write("boiler/boiler.flow", 400)
    sheet.write("common/outside.den", 0)
    ticks(recorder, 190, 210)
    if is_mended:
        sheet.write("common/outside.den", 1)
        sheet.clear("common/outside")
        sheet.invoke("boiler/alarm.release")
        ticks(recorder, 210, 230)
    return recorder.whole()


def built(kits):
    """The sheet as it stands in the store that the morning saved: its components have the ids of the morning."""
    sheet = named.Named(record.Recorder(USER, PASSWORD, SECRET), kits)
    build(sheet)
    return sheet


def write_records(folder, kits):
    for name, text in (("morning", morning(kits)), ("trouble", trouble(kits)), ("mended", trouble(kits, True))):
        (folder / f"{name}.record").write_bytes(text)


def build_over(session, kits):
    """Builds it over a session with a node, and saves; how many components were added."""
    if [(name, checksum & 0xFFFFFFFF) for name, checksum in session.versions()] != kits.versions():
        sys.exit("the node has other kits")
    sheet = named.Named(session, kits)
    build(sheet)
    session.save()
    return len(sheet.known) - 1


def main():
    parser = argparse.ArgumentParser(description=__doc__, formatter_class=argparse.RawDescriptionHelpFormatter)
    parser.add_argument("--records", metavar="FOLDER", help="write the records there; no node is spoken to")
    parser.add_argument("--port", type=int, default=1876, help="the port of 127.0.0.1 where the node is")
    parser.add_argument("--user", default=USER)
    parser.add_argument("--password", default=PASSWORD)
    asked = parser.parse_args()
    kits = schema.Schema(KITS)
    if asked.records:
        write_records(pathlib.Path(asked.records), kits)
        return
    try:
        session = client.Session("127.0.0.1", asked.port, asked.user, asked.password)
        count = build_over(session, kits)
        session.close()
    except (client.Closed, wire.Refused, wire.Malformed, TimeoutError) as why:
        sys.exit(f"{type(why).__name__.lower()}: {why}")
    print(f"{count} components were added, and saved")


if __name__ == "__main__":
    main()
