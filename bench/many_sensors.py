"""A device with many sensors, each with a name, as a description."""

HEAD = """eid = 9
keep_ms = {keep}
{more}tid = 1
version0 = "00f0f0f1"
version2 = "00f2f1f1"
update_time = "00000000000000000000000000"
oem_update_time = "00000000000000000000000000"
[records]
entity = [64, 1, 0]
"""
SENSOR = """[[numeric_sensor]]
id = {id}
size = "uint16"
states = [1, 1, 1]
value = {id}
name = "Sensor {id}"
unit = "rpm"
"""


def description(sensors, keep, more=""):
    """A device at endpoint 9, with a locator of its terminus, and two records for each sensor; `more` are settings."""
    return HEAD.format(keep=keep, more=more) + "".join(SENSOR.format(id=place + 1) for place in range(sensors))
