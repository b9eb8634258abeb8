"""Where mutants stand in sources in Rattle, and how a place asks whether one is on; for tools/score.

`mutate` takes the text of a file and gives it back with a question in each place, and its mutants. The questions are calls of the crate `hook`, which
score_hook.c answers at run time:

  hook::m(N)         whether mutant N is on
  hook::b(N, C)      the condition C; true where N is on, false where N + 1 is, and the other one where N + 2 is
  hook::t(N, C)      C, or true where N is on: a conjunct is left out
  hook::f(N, C)      C, or false where N is on: an alternative is left out
  hook::n8(N, M, V)  the number V of a table's entry, below M, or another one where N + V is on; and n32 for larger ones

All but the first are told what the place is about, so that what changes nothing in a run is known from the run alone.
"""
import difflib
import re

CLAUSE = re.compile(r"\b((requires|ensures)(\s*\*)?(\s+\w+)?|ghost\s+\w+\s*:(\s*(owns|lends))?)\s*\Z")
FUNCTION = re.compile(r"(?m)^[ \t]*(?:pub(?:\([^)]*\))?[ \t]+)?(?:unsafe[ \t]+)?fn[ \t]+(\w+)")
OPERATOR = re.compile(r" (==|!=|<=|>=|<|>|&&|\|\|)(?=\s)")
OFF_BY_ONE = {"<": "<=", "<=": "<", ">": ">=", ">=": ">"}
NUMBERS = {"u8": "n8", "u32": "n32"}
# How many other entries of a table an entry is exchanged with, each in a mutant of its own.
MOST_ENTRIES = 2


class Mutant:
    """A change in a place of a file: its line, its function, the kind of change, and what it is in words."""

    def __init__(self, number, line, function, kind, change, key, other=0):
        self.number, self.line, self.function, self.kind, self.change, self.key, self.other = number, line, function, kind, change, key, other


def blanked(text):
    """The text with its comments, and what stands in its strings and characters, as blanks, so that each place stays where it is."""
    pattern = r'//[^\n]*|b?"(?:\\.|[^"\\])*"|b?\'(?:\\(?:x\w\w|u\{\w+\}|.)|[^\'\\])\''
    return re.sub(pattern, lambda it: re.sub(r"[^\n]", " " if it[0].startswith("/") else "_", it[0]), text, flags=re.S)


def closing(text, at):
    """Where the bracket that opens here is closed."""
    depth = 0
    for it in re.compile(r"[][(){}]").finditer(text, at):
        depth += 1 if it[0] in "([{" else -1
        if not depth:
            return it.start()
    return len(text)


def body_of(text, at):
    """Where the body of the function starts and ends whose name ends here, behind its clauses, and where its signature ends; None without a body."""
    signature = None
    while True:
        depth, brace = 0, None
        for it in re.compile(r"[][(){};]").finditer(text, at):
            if it[0] in "{;" and not depth:
                brace = it
                break
            depth += (it[0] in "([{") - (it[0] in ")]}")
        if not brace or brace[0] == ";":
            return None
        signature = signature or brace.start()
        if not CLAUSE.search(text[at : brace.start()]):
            return brace.start(), closing(text, brace.start()), signature
        at = closing(text, brace.start()) + 1


class Function:
    """A function with a body: where it stands, and its signature."""

    def __init__(self, name, start, body, end, signature):
        self.name, self.start, self.body, self.end, self.signature = name, start, body, end, signature

    def result(self):
        """The type that it returns, as it is written."""
        found = re.search(r"->\s*(.*?)\s*(?:\b(?:requires|ensures|where|ghost)\b.*)?\Z", self.signature, re.S)
        return found[1] if found else "()"


def functions_of(text):
    """The functions of a text whose comments and strings are blank."""
    found, end = [], 0
    for it in FUNCTION.finditer(text):
        body = body_of(text, it.end()) if it.start() >= end else None
        if body:
            found.append(Function(it[1], it.start(), body[0], body[1], text[it.end() : body[2]]))
            end = body[1]
    return found


def line_of(text, at):
    return text.count("\n", 0, at) + 1


def short(text, most=90):
    """A part of a source in one line."""
    text = " ".join(text.split())
    return text if len(text) <= most else f"{text[: most - 3]}..."


def split_at(text, separator):
    """The parts of an expression between this separator, outside of brackets, as pairs of places."""
    parts, depth, last = [], 0, 0
    for it in re.finditer(r"[][(){}]|" + re.escape(separator), text):
        if it[0] == separator and not depth:
            parts.append((last, it.start()))
            last = it.end()
        elif it[0] != separator:
            depth += 1 if it[0] in "([{" else -1
    return [*parts, (last, len(text))]


def trimmed(text, start, end):
    """The place of a part without the blanks around it."""
    part = text[start:end]
    return start + len(part) - len(part.lstrip()), end - len(part) + len(part.rstrip())


class File:
    """A source file whose places are given questions."""

    def __init__(self, path, text, first):
        self.path, self.text, self.blank = path, text, blanked(text)
        self.number, self.mutants, self.changes, self.appended = first, [], [], ""
        self.dropped = set()

    def add(self, at, function, kind, change, other=0, number=None):
        """Notes a mutant, and returns its number, or None where it was left out since it doesn't compile."""
        key = f"{self.path}:{line_of(self.text, at)}: {kind}: {change}"
        if key in self.dropped:
            return None
        if number is None:
            number, self.number = self.number, self.number + 1
        self.mutants.append(Mutant(number, line_of(self.text, at), function, kind, change, key, other))
        return number

    def insert(self, start, end, before, after, key):
        """Puts texts before and behind a part. What is put around a longer part stands further out."""
        self.changes.append((start, end, before, after, key))

    def code(self, start, end):
        """A part as one line, without its comments."""
        part = "".join(" " if blank == " " else it for it, blank in zip(self.text[start:end], self.blank[start:end]))
        return " ".join(part.split()) if '"' not in part else re.sub(r"\s*\n\s*", " ", part)


def regions_of(file, function):
    """The places of conditions of a function: behind `if` and `while`, of guards, what is computed by comparisons, and what a test answers."""
    blank, found = file.blank, set()
    for it in re.compile(r"\b(?:if|while) (?!let\b)").finditer(blank, function.body, function.end):
        found.add((it.end(), end_of_region(blank, it.end())))
    for it in OPERATOR.finditer(blank, function.body, function.end):
        start, end = start_of_region(blank, it.start()), end_of_region(blank, it.end())
        if start is not None and re.match(r"ghost\b|prove\b", blank[start:end]) is None:
            found.add((start, end))
    if function.result() == "bool":
        found |= answers_of(blank, function)
    found = {trimmed(blank, *it) for it in found}
    # a part in parentheses is one of its condition, and what stands behind `if let` is none alone
    nested = [it for it in found if any(a < it[0] and it[1] < z for a, z in found)]
    inner = {it for it in nested if blank[it[0] - 1] == "(" and not re.match(r"[\w>]", blank[it[0] - 2])}
    return sorted(it for it in found - inner if not re.search(r"\b(?:if|while) let [^=;{}]*= *\Z", blank[function.body : it[0]]))


def answers_of(blank, function):
    """The places of what a function that returns `bool` answers: its last expression, what it returns, and the arms of its last `match`."""
    found, last = set(), blank.rstrip()[: function.end].rstrip()
    start = max(last.rfind(it, function.body) for it in (";\n", "{\n", "}\n")) + 1
    tail = last[start:].strip()
    if tail and not re.match(r"(if|match|while|for|loop|let|return)\b|[})]", tail) and "{" not in tail and not tail.endswith((";", "}")):
        found.add((start, len(last)))
    for it in re.compile(r"\breturn (?!if\b|match\b)([^;{}]+);").finditer(blank, function.body, function.end):
        found.add(it.span(1))
    for it in re.compile(r"=> ((?:true|false|[a-z_.]+\([^;{}\n]*\))),?(?=\n)").finditer(blank, function.body, function.end):
        found.add(it.span(1))
    return found


def start_of_region(blank, at):
    """Where the condition starts in which an operator stands here."""
    depth, place = 0, at
    while place > 0:
        place -= 1
        it = blank[place]
        if it == "}" and not depth and re.match(r"\n\s*(?![\s.?&|])", blank[place + 1 : place + 100]):
            return place + 1
        if it in ")]}":
            depth += 1
        elif it in "([{":
            if not depth:
                return place + 1
            depth -= 1
        elif not depth:
            if it in ",;":
                return place + 1
            if it == "=" and blank[place - 1] == " " and blank[place + 1] in " \n":
                return place + 1
            if blank.startswith("=> ", place) or blank.startswith("| ", place) and blank[place - 1] not in "| ":
                return place + 2 if it == "=" else place + 1
            if it == ":" and blank[place - 1] != ":" and blank[place + 1] != ":":
                return place + 1
            word = re.match(r"(if|while|return|else|match|in) ", blank[place : place + 7])
            if word and not blank[place - 1].isalnum() and blank[place - 1] != "_":
                return place + word.end()
    return None


def end_of_region(blank, at):
    """Where the condition ends in which an operator ends here."""
    depth = 0
    for it in re.compile(r"[][(){},;]|=>").finditer(blank, at):
        if it[0] == "{" and not depth and blank[it.start() - 1] == " ":
            return it.start()
        if it[0] in ("[", "(", "{"):
            depth += 1
        elif it[0] in ("]", ")", "}"):
            if not depth:
                return it.start()
            depth -= 1
        elif not depth:
            return it.start()
    return len(blank)


def add_condition(file, function, start, end):
    """Gives a condition its questions: fixed, negated, without one of its parts, and off by one."""
    blank, what = file.blank[start:end], short(file.text[start:end])
    numbers = [(f"`{what}` is true", "true"), (f"`{what}` is false", "false"), (f"`{what}` is negated", "negated")]
    if re.match(r"\s*(true|false)\Z", blank):
        numbers = numbers[2:]
    first = file.number
    if f"{file.path}:{line_of(file.text, start)}: condition: `{what}`" not in file.dropped:
        file.number += 3
        for change, kind in numbers:
            file.add(start, function, kind, change, number=first + ("true", "false", "negated").index(kind))
        file.insert(start, end, f"hook::b({first}, ", ")", f"{file.path}:{line_of(file.text, start)}: condition: `{what}`")
    add_parts(file, function, start, end, what)


def add_parts(file, function, start, end, what):
    """Gives the parts of a condition between `&&` and `||` their questions, and the comparisons in them."""
    blank = file.blank[start:end]
    for separator, call, kind in (("||", "f", "alternative"), ("&&", "t", "conjunct")):
        parts = split_at(blank, separator)
        if len(parts) > 1:
            for a, z in parts:
                a, z = trimmed(blank, a, z)
                number = file.add(start + a, function, kind, f"`{what}` without `{short(file.text[start + a : start + z])}`")
                if number is not None:
                    file.insert(start + a, start + z, f"hook::{call}({number}, ", ")", file.mutants[-1].key)
                add_parts(file, function, start + a, start + z, what)
            return
    if blank.startswith("!(") and closing(blank, 1) == len(blank) - 1:
        add_parts(file, function, start + 2, end - 1, what)
    elif blank.startswith("(") and closing(blank, 0) == len(blank) - 1:
        add_parts(file, function, start + 1, end - 1, what)
    else:
        add_comparison(file, function, start, end)


def add_comparison(file, function, start, end):
    """Gives a comparison its question: with equality, or without it."""
    depth = 0
    for it in re.finditer(r"[][(){}]| (<=|>=|<|>) ", file.blank[start:end]):
        if it[1] and not depth:
            here, other = start + it.start(1), OFF_BY_ONE[it[1]]
            changed = f"({file.code(start, here)}) {other} {file.code(here + len(it[1]), end)}"
            number = file.add(start, function, "off by one", f"`{short(file.text[start:end])}` by `{other}`")
            if number is not None:
                file.insert(start, end, f"(if hook::m({number}) {{ {changed} }} else {{ ", " })", file.mutants[-1].key)
            return
        if not it[1]:
            depth += 1 if it[0] in "([{" else -1


STATEMENT = re.compile(r"(?m)^[ \t]+(?!(?:let|return|break|continue|if|match|while|for|loop|use|else|ghost|prove)\b)(?=[a-zA-Z_*'])")


def add_statements(file, function):
    """Gives each statement without a value its question: it is left out. And the last call of a function that answers `Result<(), ..>`."""
    blank = file.blank
    for it in STATEMENT.finditer(blank, function.body, function.end):
        before = blank[: it.start()].rstrip()[-1:]
        end = end_of_statement(blank, it.end(), function.end)
        if before not in ("{", ";", "}") or end is None:
            continue
        text = blank[it.end() : end]
        if re.match(r"\w+: |\w+,|'\w+:|[\w:]+ \{", text) or re.match(r"[^{;]*? =>", text):
            continue
        if blank[end] == ";":
            number = file.add(it.end(), function.name, "statement", f"without `{short(file.text[it.end() : end + 1])}`")
            if number is not None:
                file.insert(it.end(), end + 1, f"if !hook::m({number}) {{ ", " }", file.mutants[-1].key)
        elif end == function.end and re.match(r"(io::)?Result<\(\)(?!, AllocFailed)", function.result()) and not re.match(r"(Ok|Err)\(", text):
            start, end = trimmed(blank, it.end(), end)
            number = file.add(start, function.name, "check", f"without `{short(file.text[start:end])}`")
            if number is not None:
                file.insert(start, end, f"if hook::m({number}) {{ Ok(()) }} else {{ ", " }", file.mutants[-1].key)


def end_of_statement(blank, at, most):
    """Where the statement ends that starts here: its `;`, or the end of its block where it is the last; None where it holds a block of its own."""
    depth = 0
    for it in re.compile(r"[][(){};]").finditer(blank, at, most + 1):
        if it[0] == ";":
            if not depth:
                return it.start()
        elif it[0] in "([{":
            depth += 1
        else:
            if not depth:
                return it.start()
            depth -= 1
            if it[0] == "}" and not depth and blank[it.end() : it.end() + 1] == "\n":
                return None
    return None


def tables_of(file, function):
    """The matches of a function on numbers or on names without parts: their subject, and the values and the text of each arm."""
    blank = file.blank
    for it in re.compile(r"\bmatch ([^\n{}]+) \{\n").finditer(blank, function.body, function.end):
        start = it.end()
        yield it.start(1), it.end(1), arms_of(file, start, closing(blank, start - 2))


def arms_of(file, at, end):
    """The arms of a match: the values of each, or None where it has another pattern or a guard, and its text."""
    blank, arms = file.blank, []
    while at < end:
        arrow = blank.find("=>", at, end)
        if arrow < 0:
            break
        stop, depth = end, 0
        for it in re.compile(r"[][(){}]|,(?=\n)|\n").finditer(blank, arrow + 3, end):
            if it[0][0] in ",\n" and not depth and (it[0] == "," or blank[it.start() - 1] == "}"):
                stop = it.end()
                break
            depth += (it[0] in "([{") - (it[0] in ")]}")
        values = [one.strip() for one in blank[at:arrow].split("|")]
        is_plain = all(re.fullmatch(r"0x[0-9a-f_]+|\d+|(?:\w+::)+[A-Z]\w*", one) for one in values)
        start = at + len(blank[at:arrow]) - len(blank[at:arrow].lstrip())
        arms.append((values if is_plain else None, file.code(arrow + 2, stop).rstrip(", "), start))
        at = stop
    return arms


def others_of(arms, index):
    """The arms that look most like this one and are others, as the values that lead there."""
    near = []
    for it, (values, text, _) in enumerate(arms):
        if it != index and values and text != arms[index][1]:
            near.append((-difflib.SequenceMatcher(None, text, arms[index][1], autojunk=False).quick_ratio(), abs(it - index), it))
    kept = {}
    for _, _, it in sorted(near):
        kept.setdefault(arms[it][1], it)
    return [arms[it][0][0] for it in list(kept.values())[:MOST_ENTRIES]]


def add_tables(file, function):
    """Gives each entry of a table its questions: it is another entry, one that is most like it."""
    for start, end, arms in tables_of(file, function):
        plain = [it for it in arms if it[0]]
        if len(plain) < 2:
            continue
        subject = file.blank[start:end]
        if re.match(r"\d|0x", plain[0][0][0]):
            add_numbers(file, function, start, end, arms)
        elif subject in ("self", "*self") or re.fullmatch(r"\w+", subject):
            add_names(file, function, start, end, subject, arms)


def add_numbers(file, function, start, end, arms):
    """The same for a match on numbers: a number is read as another one."""
    subject = file.blank[start:end]
    typed = re.search(rf"\b{re.escape(subject)}: (\w+)", function.signature)
    kind = typed[1] if typed else "u8" if re.search(r"(\b|_)(opcode|byte|u8\(\)\?)\Z", subject) else "u32" if subject == "code" else None
    values = [int(one.replace("_", ""), 0) for it in arms for one in it[0] or ()]
    if kind not in NUMBERS or not values or max(values) > 4095:
        return
    key = f"{file.path}:{line_of(file.text, start)}: table"
    if key in file.dropped:
        return
    first = file.number
    file.number += max(values) + 1
    for index, (numbers, text, at) in enumerate(arms):
        others = others_of(arms, index) if numbers else ()
        for one in numbers or ():
            for other in others[:1]:
                it = int(one.replace("_", ""), 0)
                file.add(at, function.name, "entry", f"`{one}` is read as `{other}`", int(other.replace("_", ""), 0), first + it)
    file.insert(start, end, f"hook::{NUMBERS[kind]}({first}, {max(values) + 1}, ", ")", key)


def add_names(file, function, start, end, subject, arms):
    """The same for a match on names: a function beside it answers another name."""
    name = arms[0][0][0].rsplit("::", 1)[0] if arms[0][0] else None
    typed = re.search(rf"\b{subject}: (&?)(?:mut )?(\w+)\b", function.signature)
    if not name or subject != "self" and (not typed or typed[2] != name) or any(it[0] and not it[0][0].startswith(f"{name}::") for it in arms):
        return
    if any(it[0] is None and it[2] and not file.blank.startswith("_ ", it[2]) for it in arms) or "::" in name:
        return
    key = f"{file.path}:{line_of(file.text, start)}: table"
    if key in file.dropped or name == "Self":
        return
    is_lent = re.search(r"\(\s*&self", function.signature) if subject == "self" else typed[1]
    rows, call = [], f"other_entry_{len(file.appended)}"
    for index, (names, text, at) in enumerate(arms):
        others = others_of(arms, index) if names else ()
        for one in names or ():
            answer = one
            for other in others:
                number = file.add(at, function.name, "entry", f"`{one}` is `{other.rsplit('::')[-1]}`")
                answer = f"if hook::m({number}) {{ {other} }} else {{ {answer} }}"
            rows.append(f"{one} => {answer},")
    rows += ["it => it,"] if any(it[0] is None for it in arms) else []
    file.appended += f" fn {call}(it: {name}) -> {name} {{ match it {{ {' '.join(rows)} }} }}"
    file.insert(start, end, f"{call}(*" if is_lent else f"{call}(", ")", key)


def add_bodies(file, functions, edits):
    """Gives each function its wrong bodies: another body before its own, for each edit that changes it."""
    for name, pairs in edits:
        places = [(file.text.find(old), old, new) for old, new in pairs if file.text.count(old) == 1]
        inside = {id(it): it for at, old, _ in places for it in functions if it.body < at and at + len(old) <= it.end}
        if len(places) != len(pairs) or not all(any(it.body < at <= it.end for it in inside.values()) for at, _, _ in places):
            continue
        at = places[0][0]
        number = file.add(at, next(iter(inside.values())).name, "wrong body", name)
        for function in inside.values() if number is not None else ():
            body = file.text[function.body + 1 : function.end]
            for _, old, new in places:
                body = body.replace(old, new) if body.count(old) == 1 else body
            code = File("", body, 0).code(0, len(body))
            file.insert(function.body + 1, function.end, f" if hook::m({number}) {{ {code} }} else {{", "}", file.mutants[-1].key)


def apply_changes(file):
    """The text with all that was put into it, and the spans of what was put there, with the keys of the mutants."""
    events = []
    for order, (start, end, before, after, key) in enumerate(file.changes):
        # what opens later in the same place stands further in; what closes there stands further out
        events.append(((start, 1, -(end - start), order), before, key))
        events.append(((end, 0, end - start, -order), after, key))
    made, at, spans, length = [], 0, [], 0
    for (place, _, _, _), text, key in sorted(events, key=lambda it: it[0]):
        made += [file.text[at:place], text]
        length += place - at
        spans.append((length, length + len(text), key))
        length += len(text)
        at = place
    return "".join(made) + file.text[at:].rstrip("\n") + file.appended + "\n", spans


def mutate(path, text, first, edits=(), dropped=()):
    """The text of a file with a question in each place, its mutants, the spans of the questions, and the first number behind them."""
    file = File(path, text, first)
    file.dropped = set(dropped)
    functions = functions_of(file.blank)
    for function in functions:
        for start, end in regions_of(file, function):
            add_condition(file, function.name, start, end)
        add_statements(file, function)
        add_tables(file, function)
    add_bodies(file, functions, edits)
    made, spans = apply_changes(file)
    return made.replace("#[inline(always)]", " " * len("#[inline(always)]")), file.mutants, spans, file.number


QUESTION = re.compile(r"if (!?)hook::m\((\d+)\) \{|hook::(b|t|f)\((\d+), |hook::n(?:8|32)\((\d+), (\d+), ")


def with_mutant(text, number, other=0):
    """A text with questions as it is where this mutant is on, or none where the number is 0: each question replaced by what it comes to."""
    while True:
        blank = blanked(text)
        it = next(iter(reversed([*QUESTION.finditer(blank)])), None)
        if not it:
            return text
        if it[2]:
            end = closing(blank, it.end() - 1)
            inner, is_on = text[it.end() : end], int(it[2]) == number
            rest = re.compile(r" else \{").match(blank, end + 1)
            close = closing(blank, rest.end() - 1) if rest else end
            chosen = inner if is_on != bool(it[1]) else text[rest.end() : close] if rest else ""
            text = text[: it.start()] + chosen + text[close + 1 :]
        else:
            end = closing(blank, blank.index("(", it.start()))
            text = text[: it.start()] + answer_of(it, text[it.end() : end], number, other) + text[end + 1 :]


def answer_of(question, inner, number, other):
    """What a question about a condition or a number comes to."""
    if question[5]:
        at = number - int(question[5])
        return f"{inner} with {at} as {other}" if 0 <= at < int(question[6]) else inner
    at = number - int(question[4])
    if question[3] == "b":
        return {0: "true", 1: "false", 2: f"!({inner})"}.get(at, inner)
    return inner if at else {"t": "true", "f": "false"}[question[3]]
