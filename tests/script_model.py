"""A plain model of what the program prints for a script of docs/SCRIPT.md, and of its journal.

The model keeps a dict for each handle and does each line by the rules there; a line of a journal is written as
docs/JOURNAL.md says.
"""

import json


# The verbs that are a freeze and the finish of its job.
BULK = ("count", "exists", "forall", "find", "filter", "mapvalues", "mappairs", "fold")


def passes(test: str, key: str, value: int) -> bool:
    """Whether the pair passes the test."""
    name, _, behind = test.partition(":")
    return {
        "all": lambda: True,
        "even": lambda: value % 2 == 0,
        "odd": lambda: value % 2 != 0,
        "lt": lambda: value < int(behind),
        "ge": lambda: value >= int(behind),
        "eq": lambda: value == int(behind),
        "prefix": lambda: key.startswith(behind),
    }[name]()


def new_value(mapping: str, key: str, value: int) -> int:
    """The value that the pair has by the map."""
    name, _, behind = mapping.partition(":")
    if name == "add":
        return (value + int(behind) + 2**63) % 2**64 - 2**63
    return int(behind) if name == "set" else len(key)


def image(pair_map: str, key: str, value: int) -> tuple[str, int]:
    """The image of the pair."""
    if pair_map == "byvalue":
        return str(value), len(key)
    return key[:1] if pair_map == "initial" else pair_map.removeprefix("to:"), value


def some(value: int | None) -> str:
    return "none" if value is None else f"some {value}"


def truth(answer: bool) -> str:
    return "true" if answer else "false"


class Model:
    """The maps of a script, a dict for each handle that is live."""

    def __init__(self) -> None:
        self.maps: dict[int, dict[str, int]] = {}

    def reply(self, verb: str, words: list[str]) -> str:
        """Does what the verb says of these arguments, and gives the reply."""
        handle = int(words[0])
        opens = {"open": words[0], **dict.fromkeys(["snap", "filter", "mapvalues", "mappairs"], words[-1])}.get(verb)
        if handle > 1023 or (opens and int(opens) > 1023):
            return "refused BadNumber"
        if verb != "open" and handle not in self.maps:
            return "refused NoHandle"
        if opens and int(opens) in self.maps:
            return "refused Taken"
        if opens:
            self.maps[int(opens)] = self.opened(verb, words)
            return f"count {len(self.maps[int(opens)])}" if verb in ("filter", "mapvalues", "mappairs") else "ok"
        if verb == "drop":
            del self.maps[handle]
            return "ok"
        if verb in ("count", "exists", "forall", "find", "fold"):
            return self.asked(verb, self.maps[handle], words[1])
        return self.command(verb, self.maps[handle], *words[1:])

    def opened(self, verb: str, words: list[str]) -> dict[str, int]:
        """The map of the handle that is opened."""
        pairs = {} if verb == "open" else self.maps[int(words[0])]
        if verb == "filter":
            return {key: value for key, value in pairs.items() if passes(words[1], key, value)}
        if verb == "mapvalues":
            return {key: new_value(words[1], key, value) for key, value in pairs.items()}
        if verb == "mappairs":
            # of images that share a key it may keep any: what is asked of such a map is its size alone
            return dict(image(words[1], key, value) for key, value in pairs.items())
        return dict(pairs)

    @staticmethod
    def asked(verb: str, pairs: dict[str, int], word: str) -> str:
        """The answer to a question about the whole map."""
        if verb == "fold":
            made = {"sum": sum, "least": min, "greatest": max}[word]
            return f"item {made(pairs.values())}" if pairs or word == "sum" else "none"
        found = [key for key, value in pairs.items() if passes(word, key, value)]
        if verb == "count":
            return f"count {len(found)}"
        if verb == "find":
            assert len(found) < 2, "of several pairs that pass it may give any"
            return f"pair {found[0]} {pairs[found[0]]}" if found else "none"
        return truth(bool(found) if verb == "exists" else len(found) == len(pairs))

    @staticmethod
    def command(verb: str, pairs: dict[str, int], key: str = "", value: str = "", new: str = "") -> str:
        """Does a command on one map, and gives its reply."""
        old = pairs.get(key)
        if verb == "size":
            return f"count {len(pairs)}"
        if verb == "clear":
            pairs.clear()
            return "ok"
        if verb == "list":
            return "".join(["pairs", *(f" {each}={pairs[each]}" for each in sorted(pairs))])
        if verb in ("replaceif", "removeif"):
            done = old == int(value)
            if done and verb == "replaceif":
                pairs[key] = int(new)
            elif done:
                del pairs[key]
            return truth(done)
        if verb == "remove":
            pairs.pop(key, None)
        if verb in ["put", "replace" if old is not None else "putifabsent", "getorelse" if old is None else ""]:
            pairs[key] = int(value)
        return some(pairs[key] if verb == "getorelse" else old)


def printed(lines: list[str]) -> str:
    """What the program prints for the lines."""
    model = Model()
    replies = []
    for number, line in enumerate(lines, 1):
        fields = line.split()
        if fields and not line.startswith("#"):
            replies.append(f"{number} {model.reply(fields[1], fields[2:])}\n")
    return "".join(replies)


def events(verb: str, words: list[str], reply: str, model: Model) -> list[tuple[str, str]]:
    """What a line that is no getorelse asks of the table and what that returns, event by event, but for the number of its job."""
    line = " ".join([verb, *words])
    if verb == "list":
        return [(f"view {words[0]}", reply)]
    if verb not in BULK or reply.startswith("refused"):
        return [(f"freeze {line}" if verb in BULK else line, reply)]
    end = model.command("list", model.maps[int(words[-1])]) if verb == "mappairs" else reply
    return [(f"freeze {line}", "job"), ("finish", end)]


def journal(lines: list[str]) -> str:
    """The journal of a script of one client."""
    model = Model()
    told: list[tuple[str, str]] = []
    jobs = 0
    for line in lines:
        fields = line.split()
        if not fields or line.startswith("#"):
            continue
        verb, words = fields[1], fields[2:]
        if verb == "getorelse":
            found = model.reply("get", words[:2])
            told.append((f"get {words[0]} {words[1]}", found))
            if found == "none":
                told.append((f"putifabsent {' '.join(words)}", model.reply("putifabsent", words)))
            continue
        for call, reply in events(verb, words, model.reply(verb, words), model):
            if reply == "job":
                reply = f"job {jobs}"
            elif call == "finish":
                call = f"finish {jobs}"
                jobs += 1
            told.append((call, reply))
    rows = [{"call": call, "entry": at, "reply": reply, "seat": 0} for at, (call, reply) in enumerate(told, 1)]
    return "".join(json.dumps(row, separators=(",", ":")) + "\n" for row in [*rows, {"entries": len(rows)}])
