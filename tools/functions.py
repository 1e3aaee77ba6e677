"""The functions of a crate's files in the layout of `rt fmt`: where each stands, how a check names it, and copies of a
crate in which all others than some are stubs."""

import re
import shutil
from dataclasses import dataclass


def module_of(file):
    """The path of the module that a file of src/ has; that of the crate's root is empty."""
    module = file.removeprefix("src/").removesuffix(".rt").removesuffix("/mod")
    return "" if module in ("lib", "main") else module


@dataclass(frozen=True)
class Function:
    """A function of a file: its lines, counted from 1, where its body begins, and its name below its module."""

    file: str
    first: int
    body: int
    last: int
    name: str

    def path(self):
        """The function's path as it stands in those of its proof files, `cutter/Cutter/feed`."""
        return "/".join(filter(None, [module_of(self.file), self.name]))

    def shown(self):
        """The end of the function's name as a check prints it. The methods of a type may stand in several files, and
        are named by that of the type alone."""
        return (self.name if "/" in self.name else self.path()).replace("/", "::")

    def hole(self):
        """The end of the name by which a check tells of the hole that stands for the function's proof in a stub."""
        return f"{self.shown().replace('::', '.')}.Proof.{self.name.split('/')[-1]}_spec"


def type_name(text):
    """The name of a type without its path and its arguments."""
    return re.sub(r"<.*", "", text.strip().lstrip("&")).split("::")[-1].strip()


def split_arguments(text):
    """The arguments of a type, as they stand between its outermost brackets."""
    found, depth = [""], 0
    for letter in text:
        depth += {"<": 1, "(": 1, ">": -1, ")": -1}.get(letter, 0)
        if letter == "," and depth == 0:
            found.append("")
        else:
            found[-1] += letter
    return [it.strip() for it in found if it.strip()]


def name_with_arguments(text, own):
    """The name of a type or a trait with those of its arguments behind it, but for lifetimes and for these types."""
    of = re.fullmatch(r"[^<]*<(.*)>", text)
    arguments = [it for it in split_arguments(of[1]) if it not in own and not it.startswith("'")] if of else []
    return type_name(text) + "".join(name_with_arguments(it, own) for it in arguments)


def impl_name(header):
    """How a check names an impl: that of `Sink for Out` is `OutSink`, of `From<A> for B` it is `BFromA`, and that of
    `Drop for Out` is `Out`, as if it were the type's own. What the impl itself is generic in has no part in it."""
    generics = re.match(r"impl(<(?:[^<>]|<[^<>]*>)*>)?\s*", header)
    own = {re.split(r"[\s:]", it)[0] for it in split_arguments((generics[1] or "<>")[1:-1])}
    made, _, on = header[generics.end() :].removesuffix("{").strip().partition(" for ")
    if not on or made.strip() == "Drop":
        return type_name(on or made)
    return type_name(on) + name_with_arguments(made.strip(), own)


def whole_header(lines, number):
    """The head of the item that begins at a line, up to its brace, in one line."""
    last = next((at for at in range(number, len(lines)) if lines[at - 1].endswith(("{", "{}"))), number)
    return " ".join(it.strip() for it in lines[number - 1 : last])


def functions_of(file, text):
    """The functions of a file in the layout of `rt fmt`, where each ends with a brace at its own indentation."""
    lines = text.split("\n")
    inside, found = "", []
    for number, line in enumerate(lines, start=1):
        if re.match(r"(unsafe )?impl\b|(pub )?trait\b", line):
            header = re.sub(r"^unsafe |^(pub )?trait ", "", whole_header(lines, number))
            inside = impl_name(header) if header.startswith("impl") else type_name(re.split(r"[\s:{<]", header)[0])
        elif line == "}":
            inside = ""
        made = re.match(r"(\s*)(?:pub(?:\([^)]*\))? )?(?:const |unsafe )*fn (\w+)", line)
        if made:
            name = f"{inside}/{made[2]}" if inside and made[1] else made[2]
            last = last_line(lines, number, made[1])
            found.append(Function(file, first_line(lines, number), body_line(lines, number, made[1]), last, name))
    return found


def functions_shown_as(name, folder):
    """The functions of a crate that a check shows under this name."""
    files = [(str(it.relative_to(folder)), it.read_text(encoding="utf-8")) for it in (folder / "src").rglob("*.rt")]
    return [it for file, text in files for it in functions_of(file, text) if it.shown() == name]


def first_line(lines, number):
    """The first line of the function that begins at a line, with its attributes, where a check may point."""
    while number > 1 and lines[number - 2].strip() and not lines[number - 2].endswith(("{", "}", ";")):
        number -= 1
    return number


def last_line(lines, number, indent):
    """The last line of the function that begins at a line: its brace, or what stands before its trait's next item."""
    if lines[number - 1].endswith("}"):
        return number
    for at in range(number, len(lines)):
        line = lines[at]
        if line in (indent + "}", indent + "{}"):
            return at + 1
        # A method of a trait has no body, and ends where the next one or the trait itself does.
        if line == "}" or re.match(rf"{indent}(pub )?fn ", line):
            return at
    return len(lines)


def body_line(lines, number, indent):
    """The line at which the body of the function that begins at a line opens; behind all lines for one without."""
    if lines[number - 1].endswith(("{", "{}")):
        return number
    for at in range(number, len(lines)):
        line = lines[at]
        if line in (indent + "{", indent + "{}") or line.startswith(indent + ")") and line.endswith("{"):
            return at + 1
        if line == "}" or re.match(rf"{indent}(pub )?fn ", line):
            break
    return len(lines) + 1


def homes_of(folder):
    """The module that declares each type of a crate, as a path, by the type's name. The proofs of a type's own methods
    stand below it, in whatever file the methods do; those of a trait's stand below the module of the impl."""
    found = {}
    for path in (folder / "src").rglob("*.rt"):
        text, module = path.read_text(encoding="utf-8"), module_of(str(path.relative_to(folder)))
        declared = re.findall(r"(?m)^(?:pub(?:\([^)]*\))? )?(?:struct|enum) (\w+)", text)
        found.update(dict.fromkeys(declared, module))
    return found


def may_be_stub(function, lines):
    """Whether the function's body may be taken away. One on a line of its own name hardly costs anything, a constant
    one runs while the crate is read, and the members of a cycle, which call one another, are proved as one."""
    head = "\n".join(lines[function.first - 1 : function.body])
    return function.last - function.body > 1 and not re.search(r"\bconst fn\b|#\[(cycle|test)\b", head)


def leave_stubs(folder, crate, real):
    """Makes stubs of all functions of a copy of a crate but those that stay real: bodies that never return, on as many
    lines, with a hole in place of the proof. To its callers a function is its contract, so they are checked as before,
    and what they call costs next to nothing. The crate itself isn't proved so."""
    homes, names = homes_of(folder), {(it.file, it.name) for it in real}
    for path in sorted((folder / "src").rglob("*.rt")):
        file, text = str(path.relative_to(folder)), path.read_text(encoding="utf-8")
        lines = text.split("\n")
        for function in functions_of(file, text):
            if (file, function.name) not in names and may_be_stub(function, lines):
                lines[function.body : function.last - 1] = ["loop {}"] + [""] * (function.last - function.body - 2)
                leave_hole(folder / "proofs", crate, function, homes)
        path.write_text("\n".join(lines), encoding="utf-8")


def leave_hole(proofs, crate, function, homes):
    """Puts a hole in place of the function's proof."""
    inside, _, name = function.name.rpartition("/")
    path = "/".join(filter(None, [homes.get(inside, module_of(function.file)), inside, name]))
    # One that calls itself has a folder with a `+`, and no longer calls itself; its closures have theirs below `fn`.
    closures = "/".join(filter(None, [module_of(function.file), "fn", function.name]))
    for old in (path, f"{path.removesuffix(name)}+{name}", closures):
        shutil.rmtree(proofs / old, ignore_errors=True)
    (proofs / path).mkdir(parents=True)
    module = path.replace("/", ".")
    (proofs / path / "Proof.antt").write_text(
        f"use Rattle.{crate}.proofs.{module}.Statement.{{statement}}\n\n"
        f"pub {name}_spec : {{M : Type 1}} → statement M\n{name}_spec = ?\n",
        encoding="utf-8",
    )
