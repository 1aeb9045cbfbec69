"""The five layers of crates: crates.txt has each crate under the comment of its layer, lowest layer first, and
docs/ARCHITECTURE.md shows them as a picture, with a star behind each crate that a host names.

What a host names is told from two programs, `first_use` and `scan_loop`.
"""

import re

LAYERS = ("arithmetic", "the rules", "the calls", "the claims", "the programs")  # as the comments begin, in small letters
CLAIMS, PROGRAMS = LAYERS.index("the claims"), LAYERS.index("the programs")
KIT = {"io", "libc", "os", "check", "bytes"}
LAYER = re.compile(rf"#\s*({'|'.join(LAYERS)}):", re.IGNORECASE)
CRATE = re.compile(r"\s*(\w+)(?:\s+staticlib)?\s*:((?:\s+\w+)*)\s*")  # as `rt` reads a line, once its comment is gone
HOSTS = ("crates/first_use/src/main.rt", "crates/scan_loop/src/*.rt")
# From the repository's root a path of a host's text; a part of a longer path is no crate
NAMED = re.compile(r"(?<![\w:])([a-z]\w*)::")
NO_CODE = re.compile(r"//.*|^\s*ghost use .*|b?\"(?:[^\"\\\n]|\\.)*\"", re.MULTILINE)
PICTURE = re.compile(r"<!-- layers -->\n(.*?)<!-- end of layers -->", re.DOTALL)
DRAWN = re.compile(r"```\w*|[^\w\s*]")  # lines, arrows and fences


def listed(text):
    """The layers in the order of crates.txt; of each crate its layer, None above the first, and what it depends on."""
    layers, crates = [], {}
    for line in text.split("\n"):
        layer, crate = LAYER.match(line), CRATE.fullmatch(line.split("#")[0])
        if layer:
            layers.append(layer.group(1).lower())
        elif crate:
            crates[crate.group(1)] = (layers[-1] if layers else None), crate.group(2).split()
    return layers, crates


def unread(text):
    """The lines of crates.txt that are neither a comment, nor blank, nor a crate."""
    return [line for line in text.split("\n") if line.split("#")[0].strip() and not CRATE.fullmatch(line.split("#")[0])]


def dependency_fault(crate, layer, depended, layer_of):
    """What is wrong in one crate's dependency on another, or None."""
    if depended in KIT or None in (layer, layer_of.get(depended)):
        return None if depended in KIT or depended in layer_of else f"crates.txt: {crate} depends on {depended}, which isn't listed"
    own, other = LAYERS.index(layer), LAYERS.index(layer_of[depended])
    if other > own:
        return f"crates.txt: {crate}, of {layer}, depends on {depended}, of the higher layer {LAYERS[other]}"
    return f"crates.txt: {crate}, a program's, depends on the claim {depended}" if (own, other) == (PROGRAMS, CLAIMS) else None


def layer_faults(text):
    """What is wrong with the layers of crates.txt, and how many layers, crates and dependencies it has."""
    layers, crates = listed(text)
    found = [] if layers == list(LAYERS) else [f"crates.txt: its layers are {', '.join(layers)}, not {', '.join(LAYERS)}"]
    found += [f"crates.txt: {crate} stands in no layer" for crate, (layer, _) in crates.items() if layer is None]
    found += [f"crates.txt: {line!r} is no crate's line" for line in unread(text)]
    layer_of = {crate: layer for crate, (layer, _) in crates.items()}
    pairs = [(crate, layer, depended) for crate, (layer, depends) in crates.items() for depended in depends]
    faults = (dependency_fault(*pair, layer_of) for pair in pairs)
    return found + [fault for fault in faults if fault], len(LAYERS) + len(crates) + len(pairs)


def crates_named(text, crates):
    """The crates that a program's code names, but in ghost imports."""
    return set(NAMED.findall(NO_CODE.sub("", text))) & set(crates)


def in_picture(text):
    """The crates of each layer of the picture, with their stars; what stands before the first layer goes with None."""
    picture, layer, found = PICTURE.search(text), None, {}
    for line in DRAWN.sub(" ", picture.group(1) if picture else "").split("\n"):
        words = " ".join(line.split())
        begun = next((each for each in LAYERS if words == each or words.startswith(f"{each} ")), None)
        layer, words = begun or layer, words.removeprefix(begun or "")
        found.setdefault(layer, []).extend(words.split())
    return found


def picture_faults(document, text, named):
    """Where the picture has a crate not at all, twice, in another layer than crates.txt, or with a wrong star; and how
    many crates there are.
    """
    _, crates = listed(text)
    drawn = [(layer, word) for layer, words in in_picture(document).items() for word in words]
    wanted = [(layer, f"{crate}*" if crate in named else crate) for crate, (layer, _) in crates.items()]
    found = [f"docs/ARCHITECTURE.md: the picture has no {word} in {layer}" for layer, word in wanted if (layer, word) not in drawn]
    found += [f"docs/ARCHITECTURE.md: the picture has {word} in {layer}, which isn't to be there"
              for place, (layer, word) in enumerate(drawn) if (layer, word) not in wanted or (layer, word) in drawn[:place]]
    return found, len(wanted)


def faults(root):
    """All faults of the repository at this root, and how many things were looked at."""
    crates, document = ((root / name).read_text(encoding="utf-8") for name in ("crates.txt", "docs/ARCHITECTURE.md"))
    _, names = listed(crates)
    named = {name for pattern in HOSTS for path in root.glob(pattern) for name in crates_named(path.read_text(encoding="utf-8"), names)}
    found, looked = layer_faults(crates)
    more, count = picture_faults(document, crates, named)
    return found + more, looked + count
