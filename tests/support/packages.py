"""A firmware update package (DSP0267, "Firmware update package header", format revision 1), without mctpctl."""
import uuid
import zlib
from collections import namedtuple

IDENTIFIER = uuid.UUID("F018878C-CB7D-4943-9800-A02F059ACA02").bytes
REVISION = 1
ASCII = 1
IANA, UUID = 0x0001, 0x0002  # types of descriptors
RELEASED = bytes(13)  # a timestamp104: nothing is known of it

# A device's record: its descriptors, a type and bytes each, the numbers of the images that are for it, and a version.
Record = namedtuple("Record", "descriptors images version", defaults=("set",))

# An image: its component's classification and identifier, its version, and its bytes.
Image = namedtuple("Image", "classification identifier version data")


def u16(number):
    return number.to_bytes(2, "little")


def u32(number):
    return number.to_bytes(4, "little")


def head_of(text):
    """The type and length of a version string, which stand before other fields and the string itself."""
    return bytes([ASCII, len(text)])


def record_bytes(record, bitmap_bytes):
    """RecordLength, DescriptorCount, DeviceUpdateOptionFlags, the version's type and length, the package data's length,
    ApplicableComponents, the version and the descriptors."""
    applicable = sum(1 << number for number in record.images).to_bytes(bitmap_bytes, "little")
    text = record.version.encode()
    body = bytes([len(record.descriptors)]) + u32(0) + head_of(text) + u16(0) + applicable + text
    body += b"".join(u16(kind) + u16(len(data)) + data for kind, data in record.descriptors)
    return u16(2 + len(body)) + body


def image_bytes(image, offset):
    """ComponentClassification, ComponentIdentifier, ComponentComparisonStamp, ComponentOptions,
    RequestedComponentActivationMethod, ComponentLocationOffset, ComponentSize and the version."""
    text = image.version.encode()
    front = u16(image.classification) + u16(image.identifier) + u32(0xFFFFFFFF) + u16(0) + u16(0)
    return front + u32(offset) + u32(len(image.data)) + head_of(text) + text


def package(records, images, version="package"):
    """The bytes of a package: its header, which ends with a CRC-32 of all before it, then one image after another."""
    bits = -(-len(images) // 8) * 8
    text = version.encode()
    middle = RELEASED + u16(bits) + head_of(text) + text + bytes([len(records)])
    middle += b"".join(record_bytes(record, bits // 8) for record in records) + u16(len(images))
    size = len(IDENTIFIER) + 3 + len(middle) + sum(len(image_bytes(image, 0)) for image in images) + 4
    places = [size + sum(len(image.data) for image in images[:number]) for number in range(len(images))]
    header = IDENTIFIER + bytes([REVISION]) + u16(size) + middle + b"".join(map(image_bytes, images, places))
    return header + u32(zlib.crc32(header)) + b"".join(image.data for image in images)
