"""The walks of the three kinds of exports: those that lend maps to a call, and those that make or end one.

docs/WALKS.md of the toolchain explains the steps.
"""

import re

from walk_parts import Context, Export, Parameter, nest, path

# The result's type, as the logic names it; its values as contracts see them; and that a value has the type.
RESULTS = {
    "Answer": ("Answer.the_row", "Answered", "((laws.lawful Answer.the_type Answer'.the_laws 𝓛).typed r _ is).0"),
    "Page": ("Page.the_row", "Paged", "((laws.lawful Page.the_type Page'.the_laws 𝓛).typed r _ is).0"),
    "u64": ("u64", "ℕ", "((uint_Lawful 𝓛 w64).typed r _ is).0"),
}
# What an export ensures of the maps that it was lent, and the fact beside it.
LENT = re.compile(r"∃ₛ \(λ \(n : (.*?)\)\. sem .* ∗ ⌜ (.*) ⌝\)")


def head(export: Export) -> str:
    """The beginning of each walk, up to the arguments."""
    count = len(export.references)
    return f"""abbrev R : RattleType
R = rows.{export.callee[0]}

abbrev stayed : Stays f.ended.signature.params f.ended.kept
stayed = {nest([it.stays() for it in export.parameters])}

pub {export.name}_spec : {{M : Type 1}} → statement M
{export.name}_spec 𝓤 𝓛 𝓜 𝓡 wired =
    let c = f.clauses 𝓛 𝓜.mem 𝓡.returns in let W = walk_of 𝓛 f.ended stayed c in let 𝓣 = tables 𝓤 𝓛.H 𝓜 𝓡 𝓡.env in
    let G = triple_of 𝓛 g.signature (g.spec 𝓛 𝓜.mem 𝓡.returns) in
    proved 𝓛 f.ended stayed c 𝓜 𝓡 {nest([it.goes(count) for it in export.parameters])}
    f.Key.name code.function (code.unfolded 𝓤 𝓛.H 𝓜 𝓡 wired)
    (λ κs. {nest([it.spelling() for it in export.parameters])}) (λ κs. {nest([it.tells() for it in export.parameters])}) (λ κs qs bounds a m are.
"""


def pointer(name: str) -> str:
    """A map's pointer once it is known not to be null: a block and an offset."""
    return f"(block_ptr b_{name} o_{name})"


class Lends:
    """The walk of an export that lends its maps to one call."""

    def __init__(self, export: Export) -> None:
        self.export = export
        self.parameters, self.maps = export.parameters, export.maps
        self.others = [it for it in self.parameters if not it.is_map]
        self.buffer = next((it for it in self.parameters if it.is_buffer), None)
        self.row, self.values, self.typed = RESULTS[export.result]
        self.type, self.fact = LENT.fullmatch(export.ensures).groups()
        self.owned = Context("AO", "REQ")

    def before(self, name: str) -> str:
        """The map's value before the call."""
        return "m" if len(self.maps) == 1 else f"m.{[it.name for it in self.maps].index(name)}"

    def after(self, at: int) -> str:
        """What a parameter that was lent is when the call has returned."""
        return f"ws{path(at)}"

    def said(self, maps: list[str]) -> str:
        """The fact that the call's contract states, with these values of the maps afterwards."""
        ghost = "g" if len(self.maps) > 1 else "m"
        text = re.sub(rf"\b{ghost}\.(\d)", r"m.\1", self.fact)
        text = re.sub(r"\bresult\b", "r", text)
        for it in self.others:
            seen = f"{it.value}.now" if it.reference is not None else it.value
            if it.is_buffer:
                text = re.sub(rf"\b{it.name}\.new\b", self.after(it.at), text)
                text = re.sub(rf"\b{it.name}\.old\b", seen, text)
            elif it.reference is not None:
                text = re.sub(rf"\b{it.name}\.now\b", seen, text)
            elif it.type == "u64":
                text = re.sub(rf"(?<![\w.]){it.name}\b(?! =)", seen, text)
        if len(maps) > 1:
            return re.sub(r"\bn\.(\d)\b", lambda found: maps[int(found[1])], text)
        return re.sub(r"(?<![\w.])n\b", maps[0], text)

    def text(self) -> str:
        it = self.owned
        self.take_apart()
        self.enter()
        self.lend()
        self.call()
        self.take_back()
        self.finish()
        names = " ".join(f"p_{it.name}" for it in self.maps)
        given = nest([f"p_{it.name}" if it.is_map else it.value for it in self.parameters])
        stored = nest([it.stored(f"p_{it.name}" if it.is_map else None) for it in self.parameters])
        alive = " ⊛ ".join([*(f"‵ (flft {it.lifetime} {it.share})" for it in self.export.references), "‵ ftrue"])
        alive = f"({alive})" if self.export.references else alive
        owns = " ⊛ ".join([*(it.owned() for it in self.parameters), "‵ ftrue"])
        lies = " ⊛ ".join(f"‵ (lies_at R full_share {it.value} {self.before(it.name)})" for it in self.maps)
        first = [
            f"let y : {'Ptr → ' * len(self.maps)}W.Ghost = λ {names}. ((κs, qs, bounds, {given}, {stored}), m) in",
            f"qed 𝓛 (({alive} ⊛ {owns}) ∷ ({lies}) ∷ []) ∵",
        ]
        lines = [f"    {line}" for line in [*first, *it.lines]]
        return head(self.export) + "\n".join(lines) + ")" * (it.open + 1) + "\n"

    def take_apart(self) -> None:
        """Splits what the function begins with into the tokens, the arguments and the maps."""
        it = self.owned
        it.split("ALIVE", "OWNS")
        rest = "ALIVE"
        for one in self.export.references:
            it.bring(rest)
            rest = f"alive behind {one.name}"
            it.split(f"token {one.name}", rest)
        rest = "OWNS"
        for one in self.parameters:
            it.bring(rest)
            rest = f"behind {one.name}"
            it.split(f"own {one.name}", rest)
        it.bring("REQ")
        if len(self.maps) == 1:
            it.rename(f"map {self.maps[0].name}")
        else:
            it.split(*(f"map {one.name}" for one in self.maps))
        tokens = [f"token {one.name}" for one in self.export.references]
        it.keep(*(f"map {one.name}" for one in self.maps), *(f"own {one.name}" for one in self.others), *tokens)

    def enter(self) -> None:
        """Finds that no map's pointer is null, stores the arguments, and makes the references that are passed on."""
        it = self.owned
        found = {one.name: one.value for one in self.maps}
        for one in self.maps:
            name, was = one.name, self.before(one.name)
            it.bring(f"map {name}")
            lies = f"(λ p. lies_at R full_share p {was})"
            it.say(f"in_a_block ! {one.value} {lies} (id⊢ 𝓤 _) (λ b_{name} o_{name} e_{name}.", 1)
            here = found | {name: "p"}
            passed = " ∷ ".join(each.machine_value(here.get(each.name)) for each in self.parameters)
            given = " ".join(here[each.name] for each in self.maps)
            goal = f"prop (WpFn 𝓤 𝓛.H 𝓣.C 𝓣.Λ code.function ({passed} ∷ []) (W.post (y {given})))"
            it.say(f"regoal ! (λ p. {goal}) e_{name} refl $")
            found[name] = pointer(name)
        passed = nest([one.passed() for one in self.parameters])
        it.say(f"enter ! _ _ _ _ _ $ alloc_all ! (λ l. pass_all ! refl {passed} $", 1)
        for _ in self.maps:
            it.say("sets ! (of_opd ! (get ! refl)) refl (tt, tt) $ sets ! (addr ! (through ! refl (stop !))) refl (tt, tt) $")
        if self.buffer:
            local = self.buffer.at + 1
            place = f"from ! (fld ! refl (hop ! (look_in_at ! {local} (sub ! 0 refl (whole !))) (stop !)))"
            it.say(f"sets ! (addr ! ({place})) refl (tt, tt) $")
            length = "get_in ! (fld ! refl (stop !)) (sub ! 1 refl (whole !))"
            parts = f"and_then ! (get ! refl) (and_then ! ({length}) (no_more !))"
            it.say(f"sets ! (agg ! ({parts})) refl {self.buffer.passed()} $")

    def lend(self) -> None:
        """Lends each map for a lifetime that is made for the call."""
        it = self.owned
        for one in self.maps:
            name, was = one.name, self.before(one.name)
            it.say(f"lft_new ! tt (λ α_{name}.", 1)
            it.names.insert(0, f"token of {name}")
            it.bring(f"map {name}")
            loan = f"‵ ((MutRef (named 0) (α_{name} ∷ []) R).own_val ({self.reference(name, 'γ')}) (vptr b_{name} o_{name} ∷ []))"
            lent = f"‵ (flent (α_{name} ∷ []) (Body (mem R) b_{name} o_{name} γ))"
            law = f"lends_ref 𝓛 R (named 0) (α_{name} ∷ []) {was} b_{name} o_{name}"
            it.say(f"use1 𝓛 (later (some (λ (γ : ℕ). {loan} ⊛ {lent}))) ({law}) $ await ! tt $ pick ! (λ γ_{name}.", 1)
            it.split(f"loan {name}", f"lent {name}")

    def reference(self, name: str, ghost_name: str) -> str:
        """The value of a reference to a map."""
        return f"record {{ ref_ptr = (b_{name}, o_{name}); ghost_name = {ghost_name}; now = {self.before(name)} }}"

    def call(self) -> None:
        """Gathers what the callee asks, calls it, and takes apart what it returns."""
        it = self.owned
        lifetimes = nest([*(f"α_{one.name} ∷ []" for one in self.maps), *(one.lifetime for one in self.export.references)])
        shares = nest([*("full_share" for _ in self.maps), *(one.share for one in self.export.references)])
        given = nest([self.reference(one.name, f"γ_{one.name}") if one.is_map else one.value for one in self.parameters])
        stored = nest([f"vptr b_{one.name} o_{one.name} ∷ []" if one.is_map else one.stored() for one in self.parameters])
        it.say(f"let z : G.Ghost = (({lifetimes}, {shares}, tt, {given}, {stored}), tt) in")
        tokens = [*(f"token of {one.name}" for one in self.maps), *(f"token {one.name}" for one in self.export.references)]
        self.gather("ARGUMENTS", [f"{'loan' if one.is_map else 'own'} {one.name}" for one in self.parameters])
        self.gather("TOKENS", tokens)
        it.bring("TOKENS", "ARGUMENTS")
        it.join("ALL")
        it.nothing("no requires")
        it.bring("ALL", "no requires")
        it.say("use2 𝓛 (raw (G.pre z)) (id⊢ 𝓤 _) $")
        it.names[:2] = ["POST"]
        arguments = "no_more !"
        for _ in self.parameters:
            arguments = f"and_then ! (get ! refl) ({arguments})"
        met = f"(g-met.met 𝓤 𝓛 𝓜 𝓡 (code.calls-c_map::{'::'.join(self.export.callee)} 𝓡.env wired))"
        it.say(f"calls_at ! (framed 𝓤 𝓛.H 𝓜 𝓣) G {met} z ({arguments}) (λ u.", 1)
        self.open_result()

    def gather(self, name: str, parts: list[str]) -> None:
        """Joins entries into one."""
        it = self.owned
        it.nothing(name)
        for one in reversed(parts):
            it.bring(one, name)
            it.join(name)

    def open_result(self) -> None:
        """Writes out what the call returned, and stores its result."""
        it = self.owned
        tokens = [
            *(f"‵ (flft (α_{one.name} ∷ []) full_share)" for one in self.maps),
            *(f"‵ (flft {one.lifetime} {one.share})" for one in self.export.references),
            "‵ ftrue",
        ]
        result = f"({' ⊛ '.join(tokens)}) ⊛ ‵ ({self.row}.own_val r (u ∷ []))"
        fact = self.said([self.after(one.at) for one in self.maps])
        last = f"some (λ (ws : Lasts g.ended z.0.0 z.0.3). ‵ (lasts g.ended z.0.0 z.0.3 ws) ⊛ raw (fact 𝓤 ({fact})))"
        it.say(f"use1 𝓛 (later (some (λ (r : {self.values}). ({result}) ⊛ {last}))) (id⊢ 𝓤 _) $")
        it.say("await ! tt $ pick ! (λ r.", 1)
        it.split("RESULT", "LASTS")
        it.split("TOKENS", "result")
        rest = "TOKENS"
        for one in self.maps:
            it.bring(rest)
            rest = f"tokens behind {one.name}"
            it.split(f"token of {one.name}", rest)
            it.say("lft_end ! tt $")
            it.rename(f"end of {one.name}")
        it.names[it.names.index(rest)] = "tokens"
        it.bring("result")
        peeks = f"peeks ! {self.row} (Is {self.row}) (shows 𝓛 {self.row}) r (u ∷ []) (λ is."
        it.say(f"{peeks} lands_as ! refl refl {self.typed} $", 1)

    def take_back(self) -> None:
        """Ends the loans, which gives each map back at its last value, and the buffer."""
        it = self.owned
        it.bring("LASTS")
        it.say("pick ! (λ ws.", 1)
        it.split("LAST", "fact")
        it.bring("fact")
        it.say("heard ! _ (λ done_.", 1)
        it.names.pop(0)
        for one in self.parameters[: (self.buffer or self.maps[-1]).at + 1]:
            it.bring("LAST")
            it.split(f"last {one.name}", "LAST", "fsplit")
            if one.is_map:
                self.take_back_map(one)
            elif one.is_buffer:
                self.take_back_buffer()

    def take_back_map(self, one: Parameter) -> None:
        it, name, now = self.owned, one.name, self.after(one.at)
        it.split(f"final {name}", f"borrow {name}", "fsplit")
        it.bring(f"end of {name}", f"lent {name}", f"final {name}")
        law = f"ref_back 𝓛 R (α_{name} ∷ []) γ_{name} {now} b_{name} o_{name}"
        it.say(f"use3 𝓛 (later (‵ (part_at R full_share {now} b_{name} o_{name}))) ({law}) $ await ! tt $")
        it.names[:3] = [f"back {name}"]

    def take_back_buffer(self) -> None:
        it = self.owned
        it.split("final", "borrow", "fsplit")
        it.split("final", "same", "fsplit")
        it.bring("same")
        it.say("feq_l ! (λ same.", 1)
        it.names.pop(0)
        it.bring("final", "borrow")
        it.say("fjoin ! $")
        it.names[:2] = ["buffer"]

    def finish(self) -> None:
        """Returns, and shows what the function ensures."""
        it = self.owned
        it.say("returns ! (look_at ! 0 refl) $ free_all ! refl $")
        backs = [f"back {one.name}" for one in self.maps]
        it.keep("result", "tokens", *(["buffer"] if self.buffer else []), *backs)
        given = " ".join(pointer(one.name) for one in self.maps)
        last = nest([self.after(one.at) if one.is_buffer else "tt" for one in self.parameters])
        same = nest(["same" if one.is_buffer else "tt" for one in self.parameters])
        it.say(f"suffices ! _ (ends_at 𝓛 f.ended stayed c (y {given}) u r {last} {same}) $")
        it.nothing("HAS")
        for one in reversed(self.parameters):
            if one.is_buffer:
                it.bring("buffer", "HAS")
            else:
                it.nothing("none")
            it.join("HAS")
        it.bring("tokens", "HAS", "result")
        it.say("group ! 3 $ frame ! $")
        now = ["n"] if len(self.maps) == 1 else [f"n.{at}" for at in range(len(self.maps))]
        lies = [f"(sem 𝓛 (lies_at R full_share {pointer(one.name)} {at}))" for one, at in zip(self.maps, now)]
        whole = f"(fact 𝓤 ({self.said(now)}))"
        for each in reversed(lies):
            whole = f"(sep 𝓤 {each} {whole})"
        last = nest([self.after(one.at) for one in self.maps[:-1]], self.after(self.maps[-1].at))
        frames = "frame ! $ " * (len(self.maps) - 1)
        it.say(f"show ! (λ (n : {self.type}). {whole[1:-1]}) {last} $ {frames}says ! done_ $ done !")


def lends(export: Export) -> str:
    """The walk of an export that lends its maps to one call."""
    return Lends(export).text()


def makes(export: Export) -> str:
    """The walk of an export that writes the map that a call returns into the room."""
    typed = f"((row_laws.{export.callee[0]}.lawful 𝓛).typed r (u ∷ []) is).0"
    kind, fact = LENT.fullmatch(export.ensures).groups()
    made = re.sub(r"\bn\.", "r.", fact)
    steps = f"""
    let y : Ptr → W.Ghost = λ p. ((κs, qs, bounds, (p, tt), (rawptr_vals p, tt)), m) in
    let z : G.Ghost = ((tt, tt, tt, tt, tt), tt) in
    qed 𝓛 (raw (on_entry 𝓛 f.signature κs qs a (y a.0).0.4) ∷ ‵ (room_at R a.0) ∷ []) ∵ drop ! $
    in_a_block ! a.0 (λ p. room_at R p) (id⊢ 𝓤 _) (λ b o e.
    regoal ! (λ p. prop (WpFn 𝓤 𝓛.H 𝓣.C 𝓣.Λ code.function (rawptr_vals p) (W.post (y p)))) e refl $
    enter ! _ _ _ _ _ $ alloc_all ! (λ l. pass_all ! refl ((tt, tt), tt) $
    sets ! (of_opd ! (get ! refl)) refl (tt, tt) $
    nothing ! $ nothing ! $ join ! $ nothing ! $ move ! (1 ∷ 0 ∷ []) $ use2 𝓛 (raw (G.pre z)) (id⊢ 𝓤 _) $
    calls_at ! (framed 𝓤 𝓛.H 𝓜 𝓣) G (g-met.met 𝓤 𝓛 𝓜 𝓡 (code.calls-c_map::{'::'.join(export.callee)} 𝓡.env wired)) z (no_more !) (λ u.
    use1 𝓛 (later (some (λ (r : {kind}). (‵ ftrue ⊛ ‵ (R.own_val r (u ∷ []))) ⊛ some (λ (ws : Lasts g.ended z.0.0 z.0.3). ‵ (lasts g.ended z.0.0 z.0.3 ws) ⊛ raw (fact 𝓤 ({made})))))) (id⊢ 𝓤 _) $
    await ! tt $ pick ! (λ r. split ! $ split ! $ drop ! $
    peeks ! R (Is R) (shows 𝓛 R) r (u ∷ []) (λ is. lands_as ! refl refl {typed} $
    move ! (1 ∷ []) $ pick ! (λ ws. split ! $ drop ! $ heard ! _ (λ done_.
    -- [what the map owns; the room; the locals]
    assigns ! (of_opd ! (get ! refl)) (through ! refl (stop !)) (init ! 1 refl {typed}) $
    sets ! (of_opd ! (unit_lit !)) refl (tt, tt) $
    returns ! (look_at ! 0 refl) $ free_all ! refl $
    move ! (1 ∷ 0 ∷ []) $ use2 𝓛 (‵ (part_at R full_share r b o)) (part_in 𝓛 R refl full_share r b o u) $
    suffices ! _ (ends_at 𝓛 f.ended stayed c (y (block_ptr b o)) vunit tt (tt, tt) (tt, tt)) $
    feq_i ! _ (vunit ∷ []) _ refl $ nothing ! $ nothing ! $ join ! $ nothing ! $ group ! 3 $ frame ! $
    show ! (λ (n : {kind}). sep 𝓤 (sem 𝓛 (lies_at R full_share (block_ptr b o) n)) (fact 𝓤 ({fact}))) r $ says ! done_ $ done !))))))))
"""
    return head(export) + steps.lstrip("\n")


def ends(export: Export) -> str:
    """The walk of an export that reads the map out of its memory, and passes it to a call."""
    typed = f"((row_laws.{export.callee[0]}.lawful 𝓛).typed m (v ∷ []) is).0"
    steps = f"""
    let y : Ptr → W.Ghost = λ p. ((κs, qs, bounds, (p, tt), (rawptr_vals p, tt)), m) in
    qed 𝓛 (raw (on_entry 𝓛 f.signature κs qs a (y a.0).0.4) ∷ ‵ (lies_at R full_share a.0 m) ∷ []) ∵ drop ! $
    in_a_block ! a.0 (λ p. lies_at R full_share p m) (id⊢ 𝓤 _) (λ b o e.
    regoal ! (λ p. prop (WpFn 𝓤 𝓛.H 𝓣.C 𝓣.Λ code.function (rawptr_vals p) (W.post (y p)))) e refl $
    enter ! _ _ _ _ _ $ alloc_all ! (λ l. pass_all ! refl ((tt, tt), tt) $
    use1 𝓛 (some (λ (v : Val). ‵ (fat full_share (lone R.mir) b o v) ⊛ ‵ (R.own_val m (v ∷ [])))) (part_out 𝓛 R refl full_share m b o) $ pick ! (λ v. split ! $
    move ! (1 ∷ []) $ peeks ! R (Is R) (shows 𝓛 R) m (v ∷ []) (λ is.
    -- [what the map owns; its cell; the locals]
    sets ! (of_opd ! (get ! refl)) refl (tt, tt) $
    sets ! (of_opd ! (load ! (through ! refl (stop !)) (look ! 1 refl))) refl {typed} $
    let z : G.Ghost = ((tt, tt, tt, (m, tt), (v ∷ [], tt)), tt) in
    nothing ! $ move ! (1 ∷ 0 ∷ []) $ join ! $ nothing ! $ join ! $ nothing ! $ move ! (1 ∷ 0 ∷ []) $ use2 𝓛 (raw (G.pre z)) (id⊢ 𝓤 _) $
    calls_at ! (framed 𝓤 𝓛.H 𝓜 𝓣) G (g-met.met 𝓤 𝓛 𝓜 𝓡 (code.calls-c_map::{'::'.join(export.callee)} 𝓡.env wired)) z (and_then ! (get ! refl) (no_more !)) (λ u.
    use1 𝓛 (later (some (λ (r : Unit {{0}}). (‵ ftrue ⊛ ‵ (unit.own_val r (u ∷ []))) ⊛ raw (ensured 𝓛 g.ended (g.clauses 𝓛 𝓜.mem 𝓡.returns) tt (m, tt) tt r)))) (id⊢ 𝓤 _) $
    await ! tt $ pick ! (λ r. split ! $ split ! $ drop ! $ feq_l ! (λ is_unit. drop ! $ lands_as ! (ap only is_unit) refl (tt, tt) $
    sets ! (of_opd ! (unit_lit !)) refl (tt, tt) $
    returns ! (look_at ! 0 refl) $ free_all ! refl $
    use1 𝓛 (‵ (room_at R (block_ptr b o))) (𝓛.laws.at_room (lone R.mir) b o v) $
    suffices ! _ (ends_at 𝓛 f.ended stayed c (y (block_ptr b o)) vunit tt (tt, tt) (tt, tt)) $
    feq_i ! _ (vunit ∷ []) _ refl $ nothing ! $ nothing ! $ join ! $ nothing ! $ group ! 3 $ done !))))))))
"""
    return head(export) + steps.lstrip("\n")
