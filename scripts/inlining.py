"""What functions ask of whoever inlines, by the sources of their crates: for scripts/unproved.

LLVM's text names a function by a path, as `ep_calls::parts::Parts::raise` or `slab::SlabIndexUsize::index::<..>`: its
crate, its module, whose it is, and its name. A type's own function is in the module of the type, wherever in the crate
its `impl` stands. One that a trait asks for is in the module of its `impl`.
"""

import re
from collections import defaultdict

#: LLVM's words for what an attribute asks for. A function that is seldom called isn't inlined, either.
ASKED = {"inline(always)": ["alwaysinline"], "inline(never)": ["noinline"], "cold": ["cold", "noinline"]}
#: What a source is read by: where impls and traits begin and end, the attributes, and where functions begin.
PARTS = re.compile(
    r"""
    ^(?:unsafe\ )?impl\b (?P<impl>[^{]*) \{(?!\})
    | ^(?:pub(?:\([^)]*\))?\ )?(?:unsafe\ )?trait\ (?P<trait>\w+)
    | ^(?P<end>\})
    | ^\ *\#\[(?P<attribute>inline\(always\)|inline\(never\)|cold)\]$
    | ^\ *(?:pub(?:\([^)]*\))?\ )?(?:const\ )?(?:unsafe\ )?(?:extern\ "C"\ )?fn\ (?P<function>\w+)
    """,
    re.M | re.X,
)
#: In LLVM's text, where a function begins whose name is a path.
DEFINED = re.compile(r'^(define [^@\n]*@"([^"\n]*)"\([^\n]*\)) (#\d+ \{)$', re.M)


def split_generics(head):
    """The names of an impl's parameters, and what follows them in its head."""
    depth = end = 0
    while head.startswith("<") and (depth or not end):
        depth += (head[end] == "<") - (head[end] == ">" and head[end - 1] != "-")
        end += 1
    inside = re.sub(r"<[^<>]*>|\([^()]*\)", "", head[1:end].replace("->", ""))
    return re.findall(r"(?:^|,)\s*(?:const )?(\w+)", inside), head[end:].strip()


def in_path(text, generics):
    """A type or a trait as paths have it: `Vec<u8, A>` is VecU8, and `&[T]` is RefSlice."""
    if text.startswith("("):
        return f"Tuple{len([it for it in text[1:-1].split(',') if it.strip()])}"
    words = [it.rpartition("::")[2] for it in re.findall(r"'\w+|[&\[]|[\w:]+", text)]
    named = [{"&": "Ref", "[": "Slice"}.get(it, it) for it in words if it[0] != "'" and it not in generics]
    return "".join(it[0].upper() + it[1:] for it in named)


def owner_of(head):
    """Whose the functions of an impl are, as paths have it: `impl<T> Index<usize> for Vec<T>` is VecIndexUsize."""
    generics, rest = split_generics(head)
    trait, is_of_trait, of = re.split(r"\swhere\b", rest)[0].strip().rpartition(" for ")
    if is_of_trait:
        return in_path(of.strip(), generics) + in_path(trait.strip(), generics)
    return in_path(of.partition("<")[0].strip(), generics)


def functions(text):
    """The functions of a source: whose each is, its name, and what it asks for in LLVM's words."""
    owner, asked = "", []
    for part in PARTS.finditer(text):
        kind = part.lastgroup
        if kind == "attribute":
            asked += ASKED[part[kind]]
            continue
        if kind == "function":
            yield owner, part[kind], " ".join(sorted(set(asked)))
        else:
            owner = {"impl": owner_of, "trait": str, "end": lambda _: ""}[kind](part[kind])
        asked = []


class Inlining:
    """What the functions of some crates ask for. `roots` are the folders of their sources, by the crates' names."""

    def __init__(self, roots):
        #: By the crate, the owner and the name of a function: what it asks for, by the module in whose source it is.
        self.asked = defaultdict(dict)
        for crate, root in roots.items():
            for file in root.rglob("*.rt"):
                names = [crate, *file.relative_to(root).with_suffix("").parts]
                module = "::".join(names[:-1] if names[-1] in ("lib", "main", "mod") else names)
                for owner, name, asked in functions(file.read_text(encoding="utf-8")):
                    self.asked[crate, owner, name][module] = asked

    def of(self, path):
        """What the function of a path asks for. That is nothing if the path may be that of several."""
        *before, name = path.partition("::<")[0].split("::")
        free = self.asked.get((before[0], "", name), {}) if before else {}
        if "::".join(before) in free or len(before) < 2:
            return free.get("::".join(before), "")
        *modules, owner = before
        owner, module = owner.partition("+")[0], "::".join(modules)
        found = self.asked.get((modules[0], owner[0].upper() + owner[1:], name), {})
        for these in ([module] * (module in found), [it for it in found if it.startswith(f"{module}::")], list(found)):
            if len(these) == 1:
                return found[these[0]]
        return ""

    def told(self, text):
        """LLVM's text of a module, with what its functions ask for."""
        return DEFINED.sub(lambda it: " ".join(filter(None, (it[1], self.of(it[2]), it[3]))), text)
