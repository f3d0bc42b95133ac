#!/usr/bin/env python3
"""The library in Python: certifies a pay table, prices a strategy card for it, and tells the best hold of a deal.

    examples/embed/notebook.py LIBRARY [CARD [DEAL]]

LIBRARY is the shared object that README.md builds; without CARD it takes the sixteen lines of examples/jacks-card.txt.
"""
import ctypes
import os
import sys


def answer(library, words, text, room_len=1 << 12):
    """The code and the text with which the program answers the words to the input."""
    given = b"".join(word.encode() + b"\0" for word in words)
    while True:
        room, taken = ctypes.create_string_buffer(room_len), ctypes.c_size_t()
        code = library.vpoker_answer(given, ctypes.c_size_t(len(given)), text, ctypes.c_size_t(len(text)), room,
                                     ctypes.c_size_t(room_len), ctypes.byref(taken))
        if code != 5:
            return code, ctypes.string_at(room, taken.value)
        room_len *= 16


def load(path):
    library = ctypes.CDLL(os.path.abspath(path))
    library.vpoker_answer.restype = ctypes.c_uint8
    return library


def main():
    if len(sys.argv) < 2:
        sys.exit(__doc__)
    library = load(sys.argv[1])
    here = os.path.dirname(os.path.abspath(__file__))
    with open(sys.argv[2] if len(sys.argv) > 2 else os.path.join(here, "..", "jacks-card.txt"), "rb") as given:
        card = given.read()
    table = card[: card.index(b"\nend\n") + len(b"\nend\n")]
    deal = "deal %s\n" % (sys.argv[3] if len(sys.argv) > 3 else "As Ks Qs Js 4s")
    for words, text in [(["certify", "5"], table), (["audit", "5"], card), (["deal", "5"], table + deal.encode())]:
        code, printed = answer(library, words, text)
        lines = printed.decode().splitlines()
        print(*words, "ends with", code)
        print("\n".join("    " + line for line in lines if line.split()[0] in ("return", "loss", "best", "refused")))


if __name__ == "__main__":
    main()
