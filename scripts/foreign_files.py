"""What a file looks like that isn't a capture, and what reads it. The scripts share it."""
import captures
from packet_files import PCAP_ORDERS, PCAPNG_SECTION

PACKETS = "packets of tcpdump or tshark: linkrec pcap makes a capture of them"
SIGNATURES = {
    **dict.fromkeys([*PCAP_ORDERS, PCAPNG_SECTION], PACKETS),
    b"\x1f\x8b": "a gzip file: decompress it first, by gzip -dc",
    b"\xfd7zXZ\0": "an xz file: decompress it first, by xz -dc",
    b"\x28\xb5\x2f\xfd": "a zstd file: decompress it first, by zstd -dc",
    b"BZh": "a bzip2 file: decompress it first, by bzip2 -dc",
    b"\x7fELF": "an ELF file, a program or a library",
}
START_SIZE = 256  # as many bytes as `description` needs


def description(start):
    """What a file that begins with these bytes looks like, and what to do; or None if it may be a capture."""
    text = next((text for signature, text in SIGNATURES.items() if start.startswith(signature)), None)
    if text or not is_text(start[:START_SIZE]):
        return text
    if captures.are_lines(start):
        return "lines of linkshow, or a golden file: linkdiff, linkgold and linkjson read them"
    if start.lstrip().startswith((b"{", b"[")):
        return "JSON, which can't be made a capture"
    return "text: xxd -r reads a hex dump, linkrec strace a trace by strace"


def is_text(start):
    """Whether these bytes are printable text. No capture of a legal message is, since the length at its start would be over
    150 MB."""
    return bool(start.strip()) and all(byte >= 32 and byte != 127 or byte in b"\t\n\r\f" for byte in start)


def hint(start, fault):
    """The second line for the report of a fault in a file that begins with these bytes, or None. linkshow has its own line for
    some files."""
    text = None if "\n" in fault.strip() else description(start)
    return f"it looks like {text}" if text else None
