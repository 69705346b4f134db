"""What is mechanical of the proofs of a dialect's types: which event a field tells and puts, field by field."""
from message_specs import kind_name


def numbered(words):
    counts = {}
    for word in words:
        counts[word] = counts.get(word, 0) + 1
        yield word if counts[word] == 1 else f"{word}-{counts[word]}"


def answer(goal, given, lines):
    return f"\npub returns-{goal} : goal.returns-{goal}\nreturns-{goal} g c = λ F {given} h.\n" + "\n".join(lines) + "\n"


def put_record(t, kind):
    calls = [f"put_{'optional_' if it.optional else ''}choice" if it.form == "choice" else it.put() for it in t.inner(kind)]
    steps = [f"c.{it}.ensures.write F _" for it in numbered(calls)][::-1]
    lines, line = [], "    "
    for n, step in enumerate(steps):
        piece = step + (" (" if n < len(steps) - 1 else " h" + ")" * (len(steps) - 1))
        if len(line) + len(piece) > 118:
            lines, line = [*lines, line.rstrip()], "    "
        line += piece
    return answer("clause-write", "rest", [*lines, line])


def read_large_record(t, kind):
    """The fields are set where they stand: what is read has no name of its own."""
    low = t.declared(kind)
    lines = [f"    let at_first = c.in_ok-first_child.ensures.read kinds F [] {low} _ h in"]
    fields = t.fields(kind)
    calls = numbered(it.read() if it.is_here() or it.form == "out" else "self" for it in fields)
    last = "at_first"
    for n, (it, call) in enumerate(zip(fields, calls)):
        owner, given = ("c." if it.form == "out" else "c.in_ok-"), ("kinds F" if it.simple or it.form == "out" else "F")
        # that it is such a particle, its name where that is asked, and its kind
        refls = " refl" * (1 if it.form == "out" else 3 if it.is_asked() else 2)
        fact = f"{owner}{call}.ensures.read {given} [] {low} {it.at} _ {last}{refls}"
        last = f"at_{it.field}"
        read = f"search (rules, {fact})" if any(t.is_signed(of.kind) for of in fields) else fact
        lines.append(f"    let {last} = {fact} in" if n < len(fields) - 1 else f"    {read}")
    return answer("clause-read", "told", lines)


def only(t, kind):
    """A group of one element: the value has the one shape."""
    low, name, it = t.lower(kind), t.camel(kind), t.choices[kind][0]
    return f"\nonly : (o : {name}) → (x : {t.camel(it.kind)}) × (o ≡ {low}.{it.variant} x)\nonly ({low}.{it.variant} x) = (x, refl)\n"


def put_only(t, kind):
    it = t.choices[kind][0]
    lines = ["    let e = (only c.args.self.now).1 in", f"    c.{it.put()}.ensures.write F rest (rw e (rw e at h))"]
    return only(t, kind) + answer("clause-write", "rest", lines)


def put_choice(t, kind):
    low, text, seen = t.lower(kind), "", set()
    puts = [("Brief", "write_member")] if kind in t.brief else []
    for variant, put in [*puts, *((it.variant, it.put()) for it in t.own(kind))]:
        call = put if put not in seen else f"{put}-in-{variant}"
        seen.add(put)
        fact = f"(subst (λ o. Writes F (one_onto ({low}_name o) ({low}_inside o) rest) (put_of c.args.writer.now)) c.in-{variant}.is h)"
        text += answer(f"in-{variant}-clause-write", "rest", [f"    c.{call}.ensures.write F rest {fact}"])
    return text


def tested(n):
    """The names of the test of the member at n, and of its branch."""
    return "c.is_at" if n == 0 else "c.is_at-else-is_at" + (f"-{n}" if n > 1 else ""), "c.if-is_at" + (f"-{n + 1}" if n else "")


def is_here(n):
    return "({}.ensures.here {}.true)".format(*tested(n))


def pair(t, it):
    return f"({it.name}, {kind_name(t, it)})"


def pairs(t, members):
    listed = " ∷ ".join([*(pair(t, it) for it in members), "[]"])
    return f"({listed})" if members else listed


def none_here(count):
    """That the child is none of the members before."""
    absent = "tt"
    for k in reversed(range(count)):
        test, branch = tested(k)
        absent = f"({test}.ensures.absent {branch}.false, {absent})"
    return absent


def member_here(t, members, n):
    """That the child which has started is this member: by the test of its name, the last since no other is left."""
    if n < len(members) - 1:
        return is_here(n)
    return f"(only_last {pairs(t, members[:n])} {pair(t, members[n])} _ F.name h.kind h.here h.among {none_here(n)})"


def member_of(t, kind, call, fact):
    """A member that was read, as the one of its group that stands in the place."""
    read = f"{call}.ensures.read F _ _ _ told h {fact} refl refl"
    return [f"    {read}"] if t.is_brief(kind) else [f"    let it = {read} in", "    (_, refl, it.0, it.1)"]


def read_large_choice(t, kind, n=0):
    members, text = t.parts(kind)[n], ""
    behind = "brief" if kind in t.brief else t.reader_of(kind, n + 1)
    calls = iter(list(numbered(it.read() for it in members if not t.holds_list(it.kind))))
    for k, it in enumerate(members):
        fact = is_here(k) if behind else member_here(t, members, k)
        if t.holds_list(it.kind):
            last = k == len(members) - 1 and not behind
            at = k if last else k + 1
            arm = f"{'else' if last else 'then'}-is_at" + (f"-{at}" if at > 1 else "")
            goal = f"{arm}-clause-read" if behind or len(members) > 1 else "clause-read"
            text += answer(goal, "told", [f"    c.{it.word}.ensures.read F told h {fact}"])
        else:
            call = next(calls)
            text += answer(f"in_ok-{call}-clause-read", "told", member_of(t, kind, f"c.in_ok-{call}", fact))
    if behind:
        rest = f"chosen_rest kinds F {t.from_part(kind, n)} {pairs(t, members)} told _ h {none_here(len(members))}"
        text += answer(f"else-is_at-{len(members)}-clause-read", "told", [f"    c.{behind}.ensures.read F told ({rest})"])
    return text


def read_apart(t, crate, file, kind, it):
    """The answers of the functions that read a member which holds a list."""
    said = lambda goal, lines: f"\npub returns-{goal} : goal.returns-{goal}\nreturns-{goal} g c = λ F told h here.\n" + "\n".join(lines) + "\n"
    refl, read = "use Rattle.std.proofs.Common.{refl}\n", said("clause-read", member_of(t, kind, f"c.in_ok-{it.read()}", "here"))
    if not it.large:
        return [(f"{file}/{it.word}", refl, read)]
    weaker = f"IfOk-weaker c.{it.read()}.result _ _ (λ _ it. (_, refl, it.0, it.1)) (c.{it.read()}.ensures.read F _ _ _ told h here refl refl)"
    head, goal = "use Rattle.std.proofs.lemmas.Result.{IfOk-weaker}\n", f"in-Some-{it.variant}-clause-read"
    if len(t.choices[kind]) > 1:
        again = refl + head, said(goal, [f"    {weaker}"])
    else:
        again = only_head(t, crate, file, kind, head), only(t, kind) + said(goal, [f"    let e = (only c.in-Some-{it.variant}.field-0).1 in", f"    rw e ({weaker})"])
    return [(f"{file}/{it.word}", *again), (f"{file}/{it.word}_anew", refl, read)]


def read_entry():
    return answer("clause-read", "told", ["    c.in_ok-self.ensures.read F told h"])


def read_brief(file):
    """The answers of the functions that read one of the brief members of a group."""
    found = "(_, refl, it.0, it.1)"
    weaker = f"IfOk-weaker c.read_member_here.result _ _ (λ _ it. {found})"
    again = answer("in-Some-Brief-clause-read", "told", [f"    {weaker} (c.read_member_here.ensures.read F told h)"])
    anew = answer("clause-read", "told", ["    let it = c.in_ok-read_member_here.ensures.read F told h in", f"    {found}"])
    refl = "use Rattle.std.proofs.Common.{refl}\n"
    return [(f"{file}/brief", refl + "use Rattle.std.proofs.lemmas.Result.{IfOk-weaker}\n", again), (f"{file}/brief_anew", refl, anew)]


def arm(n, last):
    """The branch of the nth test, and what the names of the calls in it end with."""
    branch = f"then-is_at-{n + 1}" if not last else "else-is_at" + (f"-{n}" if n > 1 else "")
    return ("", branch.removesuffix("-1")) if n == 0 else (f"-{branch}", branch)


def read_choice(t, kind):
    """A member is one of its choice by the last step of reading it, or by what it is mapped to."""
    members, text = t.choices[kind], ""
    for n, (it, call) in enumerate(zip(members, numbered(it.read() for it in members))):
        ending, branch = arm(n, n == len(members) - 1)
        read = f"ensures.read {'_ F _ _ _ _' if it.simple else 'F _ _ _'} told h {member_here(t, members, n)} refl refl{' refl' * it.simple}"
        if t.lent(kind):
            branch, whole = f"in_ok-{call}", f"c.in_ok-{call}.{read}"
        else:
            whole = f"mapped {t.lower(kind)}.{it.variant} _ _ _ _ c.map{ending}.ensures.cases (c.{it.read()}{ending}.{read}) (λ _ p. p)"
        goal = f"{branch}-clause-read" if len(members) > 1 else "clause-read"
        text += answer(goal, "told", [f"    search (rules, {whole})" if t.is_signed(it.kind) else f"    {whole}"])
    return text


def with_uses(t, crate, place, head, body):
    return head + f"use Rattle.{crate}.proofs.{place.replace('/', '.')}.Goals as goal\n" + body


def only_head(t, crate, file, kind, lemmas=""):
    """What the one shape of a group of one element names, behind these lemmas."""
    name, member = t.camel(kind), t.choices[kind][0]
    inner = t.camel(member.kind)
    of_inner, of_own = (f"Rattle.{it[0]}.specs.declared.{it[1]}" for it in (t.places[member.kind], (crate, file)))
    head = f"use Rattle.std.proofs.Common.{{◌≡◌, refl}}\n{lemmas}use {of_inner}.{inner}.{{{inner}}}\n"
    return head + f"use {of_own}.{name}.{{{name}}}\n" + variants_use(t, crate, file, kind)


def put_choice_head(t, crate, file, kind):
    low, members = t.lower(kind), t.choices[kind]
    if len(members) == 1:
        return only_head(t, crate, file, kind)
    head = "use Rattle.std.proofs.Common.{subst}\nuse Rattle.message_parts.specs.Contents.{one_onto}\n"
    head += "use Rattle.message_parts.specs.Writing.{Writes, put_of}\n"
    return head + f"use Rattle.{crate}.specs.{file.capitalize()}.{{{low}_name, {low}_inside}}\n"


def variants_use(t, crate, file, kind):
    return f"use Rattle.{crate}.specs.declared.{file}.{t.camel(kind)}.TheVariants as {t.lower(kind)}\n"


def read_choice_head(t, crate, file, kind, n=0):
    members = t.parts(kind)[n]
    rules = "rules, " if any(t.is_signed(it.kind) for it in members) else ""
    refl = "" if kind in t.brief else "refl, "
    head = f"use Rattle.std.proofs.Common.{{{rules}{refl}[]{', ◌∷◌' if len(members) > 1 else ''}{', drop' if n and t.reader_of(kind, n + 1) else ''}}}\n"
    if kind in t.brief or t.reader_of(kind, n + 1):
        head += "use Rattle.message_parts.proofs.Chosen.{chosen_rest}\n"
        head += f"use Rattle.{t.s.crate}.specs.Declarations.{{kinds}}\nuse Rattle.{crate}.specs.{file.capitalize()}.{{{t.lower(kind)}_members}}\n"
    else:
        maps = kind not in t.large and not t.lent(kind)
        head += f"use Rattle.message_parts.proofs.Chosen.{{only_last{', mapped' * maps}}}\n"
        head += variants_use(t, crate, file, kind) if maps else ""
    head += f"use Rattle.{t.s.crate}.specs.declared.names.TheConstants.{{{', '.join(it.name for it in members)}}}\n"
    kinds = dict.fromkeys(kind_name(t, it) for it in members)
    return head + f"use Rattle.{t.s.crate}.specs.declared.kinds.TheConstants.{{{', '.join(kinds)}}}\n"


def read_large_record_head(t, kind):
    rules = "rules, " if any(t.is_signed(it.kind) for it in t.fields(kind)) else ""
    head = f"use Rattle.std.proofs.Common.{{{rules}refl, []}}\n"
    return head + f"use Rattle.{t.s.crate}.specs.Declarations.{{kinds}}\nuse Rattle.{t.s.crate}.specs.{t.section(kind)}.{{{t.declared(kind)}}}\n"


def proofs(t, crate, file, kind):
    """The answers of each place, FILE/IMPL/FUNCTION."""
    name, found = t.camel(kind), []
    if kind in t.choices:
        put = put_choice if len(t.choices[kind]) > 1 else put_only
        found.append(("PutChoice/write_member", put_choice_head(t, crate, file, kind), put(t, kind)))
        if kind in t.large:
            at = "LargeChoice/read_member_here" if t.is_brief(kind) else "LargeGroup/read_member_into"
            found.append((at, read_choice_head(t, crate, file, kind), read_large_choice(t, kind)))
        else:
            found.append(("Choice/read_member", read_choice_head(t, crate, file, kind), read_choice(t, kind)))
    elif kind in t.s.content:
        found.append(("PutRecord/write", "", put_record(t, kind)))
        if kind in t.large:
            found.append(("LargeRecord/read_here", read_large_record_head(t, kind), read_large_record(t, kind)))
        elif t.is_entry(kind):
            found.append(("LargeRecord/read_here", "", read_entry()))
    places = [(f"{file}/{name}{place}", head, body) for place, head, body in found]
    if kind in t.large and kind in t.choices:
        apart = [it for it in t.own(kind) if t.holds_list(it.kind)]
        places += [found for it in apart for found in read_apart(t, crate, file, kind, it)]
        places += read_brief(file) if kind in t.brief else []
        places += [(f"{file}/{t.reader_of(kind, n)}", read_choice_head(t, crate, file, kind, n), read_large_choice(t, kind, n)) for n in range(1, len(t.parts(kind)))]
    return {place: with_uses(t, crate, place, head, body) for place, head, body in places}
