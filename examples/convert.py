"""Converts the card on standard input to JSON on standard output; with the word home, JSON to a card. It needs the shared library, which `make` builds:

    python3 examples/convert.py < examples/ada.vcf | python3 examples/convert.py home

THYMEBARREL names the library where it is not installed: THYMEBARREL=target/c/libthymebarrel.so.0.1.0
"""
import ctypes, os, sys

library = ctypes.CDLL(os.environ.get("THYMEBARREL", "libthymebarrel.so.0.1"))
size, pointer = ctypes.c_size_t, ctypes.POINTER(ctypes.c_size_t)
for name, inputs in (("card_to_json", [ctypes.c_char_p, size, size, ctypes.c_char_p, size]), ("json_to_card", [ctypes.c_char_p, size])):
    function = getattr(library, "thymebarrel_" + name)
    function.argtypes = [*inputs, ctypes.c_char_p, size, pointer, pointer]
    function.restype = ctypes.c_uint8


def call(function, *inputs, room=65536):
    """The result, or a ValueError with the refusal's number and place."""
    out, place, written = ctypes.create_string_buffer(room), size(), size()
    answer = function(*inputs, out, room, place, written)
    if answer:
        raise ValueError(f"refused {answer} at place {place.value}")
    return out.raw[:written.value].decode()


def card_to_json(card, stem=b"reg", number=1):
    return call(library.thymebarrel_card_to_json, stem, len(stem), number, card, len(card))


def json_to_card(json):
    return call(library.thymebarrel_json_to_card, json, len(json), room=32768)


if __name__ == "__main__":
    given = sys.stdin.buffer.read()
    try:
        result = json_to_card(given) if sys.argv[1:] == ["home"] else card_to_json(given) + "\n"
    except ValueError as refusal:
        sys.exit(str(refusal))
    sys.stdout.buffer.write(result.encode())
