"""The elements of a schema in XML (Simple Binary Encoding 1.0, "Message schema"), and its types as tables of this project's text.
`schema-from-xml` beside this file reads messages by them."""
import collections, re
from xml.parsers import expat

SIZES = {"char": 1, "int8": 1, "int16": 2, "int32": 4, "int64": 8, "uint8": 1, "uint16": 2, "uint32": 4, "uint64": 8, "float": 4, "double": 8}
# the least and the greatest number that the bytes of an integer hold
RANGES = {it: (-(1 << 8 * size - 1), (1 << 8 * size - 1) - 1) if it[0] == "i" else (0, (1 << 8 * size) - 1) for it, size in SIZES.items() if it[0] not in "fd"}
NAME = r"[A-Za-z_][A-Za-z0-9_]{0,63}"
# the greatest block, in bytes, and how deep elements and composites may lie
LARGEST, DEEPEST = 16384, 16
CHILDREN = {
    "": ("messageSchema",),
    "messageSchema": ("types", "message"),
    "types": ("type", "composite", "enum", "set"),
    "composite": ("type", "composite", "enum", "set", "ref"),
    "enum": ("validValue",),
    "set": ("choice",),
    "message": ("field", "group", "data"),
    "group": ("field", "group", "data"),
}
CARRIED = {
    "messageSchema": "id version byteOrder headerType",
    "types": "",
    "type": "name primitiveType length presence nullValue minValue maxValue valueRef offset",
    "composite": "name offset",
    "enum": "name encodingType presence nullValue offset",
    "validValue": "name",
    "set": "name encodingType offset",
    "choice": "name",
    "ref": "name type offset",
    "message": "name id blockLength sinceVersion",
    "field": "name id type presence valueRef offset sinceVersion",
    "group": "name id dimensionType blockLength sinceVersion",
    "data": "name id type sinceVersion",
}
DROPPED = "package semanticVersion description semanticType characterEncoding timeUnit epoch deprecated".split()
# A part of a type's bytes: its place, its type in the text, the value of a constant, and of an enum the number that is no value.
Piece = collections.namedtuple("Piece", "name at type size presence value null")


class Refused(Exception):
    """What cannot be carried, with its line; the rest of its element is not looked at."""


class Node:
    def __init__(self, tag, attributes, line):
        self.tag, self.attributes, self.line, self.children, self.text = tag, attributes, line, [], ""

    def get(self, key, default=None):
        return self.attributes.get(key, default)

    def refuse(self, why):
        raise Refused(self.line, f"{self.tag}{' ' + self.get('name') if self.get('name') else ''}: {why}")


def tree(data):
    """The outermost of the elements of an XML document: names without namespaces, and no attributes of other namespaces."""
    parser, opened = expat.ParserCreate(namespace_separator=" "), [Node("", {}, 0)]

    def begin(tag, attributes):
        if len(opened) > DEEPEST:
            raise Refused(parser.CurrentLineNumber, f"elements lie more than {DEEPEST} deep")
        node = Node(tag.rpartition(" ")[2], {key: value for key, value in attributes.items() if " " not in key}, parser.CurrentLineNumber)
        opened[-1].children.append(node)
        opened.append(node)

    def text(part):
        opened[-1].text += part

    def doctype(*_):
        raise Refused(parser.CurrentLineNumber, "a document type is not read")

    parser.StartElementHandler, parser.EndElementHandler = begin, lambda _: opened.pop()
    parser.CharacterDataHandler, parser.StartDoctypeDeclHandler = text, doctype
    try:
        parser.Parse(data, True)
    except expat.ExpatError as it:
        raise Refused(it.lineno, f"this is no XML: {expat.ErrorString(it.code)}") from it
    except (LookupError, ValueError) as it:
        raise Refused(1, f"this is no XML that is read: {it}") from it
    return opened[0]


class Words:
    """What was refused so far, and what was left out."""

    def __init__(self):
        self.refused, self.dropped = set(), {}

    def each(self, nodes, carry):
        """What comes of each element; of one that is refused nothing."""
        found = []
        for node in nodes:
            try:
                found.append(carry(node))
            except Refused as it:
                self.refused.add(it.args)
        return found

    def look(self, node):
        """Whether the standard has the elements in this one, each where it stands, and what of them is left out."""
        for child in node.children:
            if child.tag not in CHILDREN.get(node.tag, ()):
                self.refused.add((child.line, f"{child.tag} has no place in {node.tag or 'a schema'}"))
                continue
            for key in child.attributes:
                if key in DROPPED or key == "sinceVersion" and node.tag in ("types", "enum", "set"):
                    self.dropped.setdefault(key, []).append(child.line)
                elif key not in CARRIED[child.tag].split() and (key, child.get(key)) != ("sinceVersion", "0"):
                    self.refused.add((child.line, f"{child.tag}: {key} cannot be carried"))
            if child.text.strip() and child.tag not in ("type", "validValue", "choice"):
                self.refused.add((child.line, f"{child.tag}: text has no place here"))
            self.look(child)
        node.children = [it for it in node.children if it.tag in CHILDREN.get(node.tag, ())]

    def number(self, node, text, least, greatest, what):
        if not re.fullmatch(r"-?[0-9]{1,20}", text.strip()) or not least <= int(text) <= greatest:
            node.refuse(f"{what} {text.strip()!r} is no number from {least} to {greatest}")
        return int(text)

    def stated(self, node, key, least, greatest, default=None):
        return default if node.get(key) is None else self.number(node, node.get(key), least, greatest, key)

    def name(self, node):
        if not re.fullmatch(NAME, node.get("name", "")):
            node.refuse("a name is 1 to 64 letters, digits and `_`, and does not begin with a digit")
        return node.get("name")

    def id_of(self, node):
        if node.get("id") is None:
            node.refuse("it has no id")
        return self.stated(node, "id", 0, 65534)

    def word(self, node, key, words, default):
        if node.get(key, default) not in words:
            node.refuse(f"{key} {node.get(key)!r} is none of {', '.join(it for it in words if it)}")
        return node.get(key, default)

    def once(self, node, seen, it, what):
        if it in seen:
            node.refuse(f"{what} {it} stands twice")
        seen.add(it)
        return it


class Types(Words):
    """The types of a schema by name, and those of the text so far."""

    def __init__(self):
        super().__init__()
        self.types, self.opened = {}, []
        self.named = {it: Node("type", {"name": it, "primitiveType": it}, 0) for it in SIZES}

    def type_named(self, node, name):
        if name not in self.named:
            node.refuse(f"there is no type {name}")
        return self.named[name]

    def emit(self, node, name, table):
        """A type of the text, which is written once; one that only names a primitive by its name is that."""
        if table == {"kind": "number", "prim": name}:
            return name
        if len(name) > 64 or name in SIZES or self.types.get(name, table) != table:
            node.refuse(f"its type would be named {name}, which is too long, a primitive's name, or that of another type")
        self.types[name] = table
        return name

    def bound(self, node, prim, key):
        """A stated null, least or greatest number; of a char it may be the character, unless that is a digit."""
        text = node.get(key)
        if text is None or prim not in RANGES and (key, text) == ("nullValue", "NaN"):
            return None
        if prim not in RANGES:
            node.refuse(f"{key} {text} of a {prim} cannot be carried")
        return ord(text) if prim == "char" and re.fullmatch(r"[ -/:-~]", text) else self.number(node, text, *RANGES[prim], key)

    def referred(self, node, prim):
        """The number of `valueRef`, which this primitive has to hold."""
        enum, _, value = node.get("valueRef").partition(".")
        found = [it for it in self.type_named(node, enum).children if it.tag == "validValue" and it.get("name") == value]
        if not found:
            node.refuse(f"there is no value {value} of an enum {enum}")
        if prim not in RANGES:
            node.refuse("a constant that valueRef names has to be of one number")
        return self.number(node, str(self.value_of(found[0], self.encoding(self.named[enum])[0])), *RANGES[prim], "valueRef")

    def constant(self, node, prim, length):
        text = node.text
        if node.get("valueRef"):
            return self.referred(node, prim if length == 1 else None)
        if prim not in RANGES or length > 1 and prim != "char":
            node.refuse(f"a constant of {'an array of ' * (length > 1)}{prim} cannot be carried")
        if prim != "char":
            return self.number(node, text, *RANGES[prim], "constant")
        # digits alone above 2^63 - 1 would be read as a number
        if not re.fullmatch(r"[ -~]+", text) or len(text) > length or text.isdigit() and int(text) >= 1 << 63:
            node.refuse(f"the constant {text!r} cannot be carried: 1 to {length} printed ASCII characters, and no number above 2^63 - 1")
        return ord(text) if length == 1 else text

    def type_pieces(self, node, name):
        prim, presence = self.word(node, "primitiveType", tuple(SIZES), None), self.word(node, "presence", ("required", "optional", "constant"), "required")
        fixed, listed = presence == "constant", prim in ("char", "uint8")
        length = self.stated(node, "length", 1, LARGEST, max(1, len(node.text)) if fixed and prim == "char" and not node.get("valueRef") else 1)
        table = {"kind": "number", "prim": prim} | ({"length": length} if length > 1 and listed else {})
        for key, to in (("nullValue", "null"), ("minValue", "min"), ("maxValue", "max")):
            if self.bound(node, prim, key) is not None:
                table[to] = self.bound(node, prim, key)
        value = self.constant(node, prim, length) if fixed else None
        plain = len(table) == 2
        if length > 1 and not listed:
            of = prim if plain else self.emit(node, name + "_element", table)
            return [Piece(f"n{at}", at * SIZES[prim], of, SIZES[prim], presence, None, None) for at in range(length)]
        of = prim if plain and self.named.get(name) is not node else self.emit(node, name, table)
        return [Piece("", 0, of, 0 if fixed else SIZES[prim] * length, presence, value, None)]

    def encoding(self, node):
        """The primitive of an enum or a set, the number that is no value, and whether this may stand."""
        encoded = self.type_named(node, node.get("encodingType"))
        prim = encoded.get("primitiveType")
        if encoded.tag != "type" or prim not in (("char", "uint8", "uint16") if node.tag == "enum" else ("uint8", "uint16", "uint32", "uint64")):
            node.refuse(f"an encodingType of {prim or encoded.tag} cannot be carried")
        null = self.bound(node if node.get("nullValue") else encoded, prim, "nullValue")
        return prim, null if null is not None else 0 if prim == "char" else RANGES[prim][1], encoded.get("presence")

    def value_of(self, node, prim):
        text = node.text if len(node.text) == 1 else node.text.strip()
        if prim == "char" and not re.fullmatch("[ -~]", text):
            node.refuse(f"the value {text!r} is no printed ASCII character")
        return ord(text) if prim == "char" else self.number(node, text, *RANGES[prim], "value")

    def listed_pieces(self, node, name):
        (prim, null, presence), names, numbers = self.encoding(node), set(), set()
        if node.tag == "set":
            of = [(self.once(it, names, self.name(it), "choice"), self.once(it, numbers, self.number(it, it.text, 0, 8 * SIZES[prim] - 1, "bit"), "bit")) for it in node.children]
            table = {"kind": "set", "prim": prim, "bits": [{"name": key, "bit": bit} for key, bit in of]}
            return [Piece("", 0, self.emit(node, name, table), SIZES[prim], "required", None, None)]
        of = [(self.once(it, names, self.name(it), "value"), self.once(it, numbers, self.value_of(it, prim), "value")) for it in node.children]
        if not of:
            node.refuse("it has no value")
        table = {"kind": "enum", "prim": prim, "values": [{"name": key, "value": value} for key, value in of]}
        piece = Piece("", 0, self.emit(node, name, table), SIZES[prim], "required", None, null)
        return [self.optional(node, piece) if self.word(node, "presence", ("required", "optional", None), presence) == "optional" else piece]

    def pieces(self, node, name):
        """What stands in the bytes of a type: an inner composite is opened, and so is an array of numbers."""
        if node.tag != "composite":
            return self.type_pieces(node, name) if node.tag == "type" else self.listed_pieces(node, name)
        if node in self.opened or len(self.opened) > DEEPEST:
            node.refuse(f"it lies in itself, or in more than {DEEPEST} others")
        self.opened.append(node)
        try:
            return self.member_pieces(node, name)
        finally:
            self.opened.pop()

    def member_pieces(self, node, name):
        found, end, seen = [], 0, set()
        for child in node.children:
            prefix, of = self.name(child), child.get("type") if child.tag == "ref" else f"{name}_{child.get('name')}"
            at = self.stated(child, "offset", end, LARGEST, end)
            for it in self.pieces(self.type_named(child, of) if child.tag == "ref" else child, of):
                path = self.once(child, seen, f"{prefix}_{it.name}" if it.name else prefix, "member")
                found.append(it._replace(name=path, at=at + it.at))
                end = at + it.at + it.size
            if len(found) > LARGEST:
                node.refuse(f"it has more than {LARGEST} members")
        return found

    def optional(self, node, piece):
        """The same piece as one that may be without a value: an enum then lists the number for that."""
        if piece.presence == "constant":
            node.refuse("it begins with a constant, and cannot be without a value")
        table = self.types.get(piece.type)
        if piece.null is None or piece.null in [it["value"] for it in table["values"]]:
            return piece._replace(presence="optional")
        values = [*table["values"], {"name": "null_value", "value": piece.null}]
        return piece._replace(presence="optional", type=self.emit(node, piece.type + "_optional", table | {"values": values}))

    def composite(self, node, name, pieces):
        """A composite of the text with these pieces as its members."""
        members, end = [], 0
        for it in pieces:
            if not re.fullmatch(NAME, it.name):
                node.refuse(f"the name {it.name} of a member is too long")
            members.append({"name": it.name, "type": it.type} | ({"offset": it.at} if it.at != end else {}) | presence_of(it))
            end = it.at + it.size
        return self.emit(node, name, {"kind": "composite", "members": members})


def presence_of(piece):
    return ({} if piece.presence == "required" else {"presence": piece.presence}) | ({} if piece.value is None else {"value": piece.value})
