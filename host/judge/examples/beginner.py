"""A keeper that speaks the text form and knows two steps, start and pick. Every other step it turns back as 5, which
the judge finds out. A beginning for a keeper of one's own: python3 beginner.py is the command."""

import sys

NEW, SEEKING, SYNCING = 0, 1, 2
START, PICK = 1, 2


class Refused(Exception):
    """A step turned back, with its number."""


def unhex(word):
    return b"" if word == "-" else bytes.fromhex(word)


def opened(clock, height):
    """The fields of the state line, in its order."""
    return {
        "mode": NEW, "sync_peer": "-", "last_clock": clock, "last_progress": clock, "last_send": clock,
        "sends": 0, "downloaded": height, "known_tip": 0, "progress_mark": 0, "entry_mark": 0,
        "stalled": b"", "evicted": b"", "pending": b"",
    }


def state_line(state):
    words = [(v.hex() or "-") if isinstance(v, bytes) else str(v) for v in state.values()]
    return ". " + " ".join(words)


def advance(state, height, view):
    """Rule 5: past each next height whose header is present and whose sections are all stored."""
    first = int.from_bytes(view[:4], "big")
    while state["downloaded"] < height:
        start = 4 + 106 * (state["downloaded"] + 1 - first)
        row = view[start:start + 106] if start >= 4 else b""
        if not row:
            raise Refused(9)
        if row[0] == 255 or not all(row[34 + 34 * place] for place in range(row[0])):
            return
        state["downloaded"] += 1


def step(before, settings, words):
    """The state after a step and its commands."""
    kind, clock, _gate, height = map(int, words[:4])
    peers, view = unhex(words[4]), unhex(words[6])
    state = dict(before, last_clock=clock, entry_mark=0)
    commands = []
    if clock < before["last_clock"]:
        raise Refused(4)
    if kind == START and before["mode"] == NEW:
        if height > 0:
            advance(state, height, view)
        state["mode"] = SEEKING
    elif kind == PICK and before["mode"] == SEEKING:
        if peers:
            peer = int.from_bytes(peers[:8], "big")
            state.update(mode=SYNCING, sync_peer=peer, last_progress=clock, sends=0)
            if clock - before["last_send"] >= settings["interval"]:
                state.update(last_send=clock, sends=1, entry_mark=1)
                commands.append(f"> 3 0 0 {peer} 0 -")
    else:
        raise Refused(5)
    return state, commands


state, settings = None, {}
for line in sys.stdin:
    head, *words = line.split()
    if head == "open":
        clock, height, timeout, checks, interval, stall = map(int, words)
        settings = {"timeout": timeout, "checks": checks, "interval": interval, "stall": stall}
        state = opened(clock, height)
        print("= 0", state_line(state), sep="\n", flush=True)
    elif head == "step":
        try:
            state, commands = step(state, settings, words)
            length = 17 * len(commands)
            print(f"= 0 0 0 0 0 0 0 0 {length}", *commands, state_line(state), sep="\n", flush=True)
        except Refused as refused:
            print(f"= {refused} 0 0 0 0 0 0 0 0", flush=True)
    elif head == "ask":
        print("= 0 0", "? -", sep="\n", flush=True)
