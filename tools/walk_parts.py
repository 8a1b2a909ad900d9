"""What tools/c_walks writes walks from: an export, its parameters, and what is owned at a place of a walk."""

import dataclasses


def nest(parts: list[str], end: str = "tt") -> str:
    """A tuple of antt, nested to the right."""
    for it in reversed(parts):
        end = f"({it}, {end})"
    return end


def path(at: int) -> str:
    """The field of the tuple's part at a position."""
    return ".1" * at + ".0"


class Context:
    """What is owned at a place of a walk, by names, and the lines of the walk so far."""

    def __init__(self, *names: str) -> None:
        self.names = list(names)
        self.lines: list[str] = []
        # the brackets that are open at the end
        self.open = 0

    def say(self, line: str, opens: int = 0) -> None:
        """Writes a line, which leaves so many brackets open."""
        self.lines.append(line)
        self.open += opens

    def positions(self, names: tuple[str, ...]) -> str:
        return " ∷ ".join(str(self.names.index(it)) for it in names)

    def bring(self, *names: str) -> None:
        """Brings entries to the head, in this order."""
        if self.names[: len(names)] != list(names):
            self.say(f"move ! ({self.positions(names)} ∷ []) $")
            self.names = [*names, *(it for it in self.names if it not in names)]

    def keep(self, *names: str) -> None:
        """Drops all other entries."""
        self.say(f"keep ! ({self.positions(names)} ∷ []) $")
        self.names = list(names)

    def split(self, first: str, second: str, step: str = "split") -> None:
        """Takes the head apart."""
        self.say(f"{step} ! $")
        self.names[:1] = [first, second]

    def join(self, name: str) -> None:
        """Puts the first two entries together."""
        self.say("join ! $")
        self.names[:2] = [name]

    def nothing(self, name: str) -> None:
        """Adds an entry that owns nothing."""
        self.say("nothing ! $")
        self.names.insert(0, name)

    def rename(self, name: str) -> None:
        """Gives the head another name."""
        self.names[0] = name


@dataclasses.dataclass(frozen=True)
class Parameter:
    """A parameter of an export: its name, its type, where it stands, and which of the references it is."""

    name: str
    type: str
    at: int
    reference: int | None

    @property
    def is_map(self) -> bool:
        return self.type == "*mut u8"

    @property
    def is_buffer(self) -> bool:
        return self.type == "&mut [u8]"

    @property
    def value(self) -> str:
        """The argument, among all."""
        return "a" + path(self.at)

    @property
    def fits(self) -> str:
        """What is known of its range."""
        return "are" + path(self.at)

    @property
    def lifetime(self) -> str:
        return "κs" + path(self.reference)

    @property
    def share(self) -> str:
        return "qs" + path(self.reference)

    @property
    def slice(self) -> str:
        """The type of a slice, as the logic names it."""
        return f"{'Mut' if self.is_buffer else 'Shr'}Slice (named {self.reference}) {self.lifetime} u8"

    def slot(self) -> str:
        """The parameter, as a signature of the logic names it."""
        if self.reference is not None:
            return f"{'mut' if self.is_buffer else 'shr'}_slice_of ({self.reference} ∷ []) tt (plain (λ _. u8))"
        return {"*mut u8": "plain (λ _. RawPtr)", "Global": "plain (λ _. heap.the_row)", "u64": "plain (λ _. u64)"}[self.type]

    def spelling(self) -> str:
        """How the machine stores a value of the type."""
        if self.reference is not None:
            return "mut_slice_vals" if self.is_buffer else "shr_slice_vals"
        return {"*mut u8": "rawptr_vals", "Global": "(λ _. heap_val ∷ [])", "u64": "uint_vals w64"}[self.type]

    def tells(self) -> str:
        """That the value says how it is stored."""
        if self.reference is not None:
            return f"{'mut' if self.is_buffer else 'shr'}_slice_Tells (named {self.reference}) {self.lifetime} u8"
        return {"*mut u8": "rawptr_Tells", "Global": "heap_Tells", "u64": "uint_Tells w64"}[self.type]

    def stored(self, pointer: str | None = None) -> str:
        """How the machine stores this argument, of a map the pointer."""
        if self.type == "Global":
            return "heap_val ∷ []"
        return f"{self.spelling()} {pointer or self.value}"

    def machine_value(self, pointer: str | None) -> str:
        """The argument as one value of the machine."""
        if self.reference is not None:
            return f"slice_val {self.value}.ref_ptr (length {self.value}.now)"
        return {"*mut u8": f"ptr_val {pointer}", "Global": "heap_val", "u64": f"vint w64 {self.value}"}[self.type]

    def owned(self) -> str:
        """What the argument owns."""
        if self.reference is not None:
            return f"‵ (({self.slice}).own_val {self.value} ({self.spelling()} {self.value}))"
        row = {"*mut u8": "RawPtr", "Global": "heap.the_row", "u64": "u64"}[self.type]
        return f"‵ ({row}.own_val {self.value} ({self.stored()}))"

    def passed(self) -> str:
        """That the argument has its type and fits it."""
        if self.reference is not None:
            return f"(tt, (tt, (record {{ fits = {self.fits}.0.1.0 }}, tt)))"
        number = f"(tt, record {{ fits = {self.fits}.1 }})"
        return {"*mut u8": "(tt, tt)", "Global": "(tt, ((tt, tt), tt))", "u64": number}[self.type]

    def stays(self) -> str:
        """What the function still has of the parameter at the return."""
        return self.slot().replace("mut_slice_of", "gave_slice") if self.is_buffer else "stay_dropped _ yes"

    def goes(self, references: int) -> str:
        """The law of what is left of the parameter at the return, where there are so many references."""
        if self.is_buffer:
            return f"Goes-gave_slice 𝓛 {references} {self.reference} tt (plain (λ _. u8))"
        return f"Goes-dropped 𝓛 {references} ({self.slot()}) yes (λ κs x w. refl)"


@dataclasses.dataclass(frozen=True)
class Export:
    """An export, as its source has it."""

    module: str
    name: str
    parameters: list[Parameter]
    # the type of the result, or none
    result: str | None
    # the value of the maps that it was lent, as contracts see it
    ghost: str | None
    ensures: str
    # the module of c_map and the function there
    callee: tuple[str, str]

    @property
    def maps(self) -> list[Parameter]:
        return [it for it in self.parameters if it.is_map]

    @property
    def references(self) -> list[Parameter]:
        return [it for it in self.parameters if it.reference is not None]
