"""Texts of LDIF (RFC 2849) as slapkit writes them."""
import base64

from model.names import as_bytes

# the undo file of a run that accepted nothing, and the beginning of every other one
NOTHING = "version: 1\n\n"


def undone(*groups):
    """The undo file of these groups, each after its mark. Each takes one accepted change back, the first the last one."""
    return NOTHING + "".join(f"# undo {number}\n{group}" for number, group in enumerate(groups, 1))


def is_plain(value):
    return value.isascii() and not set(value) & set("\0\r\n") and not value.startswith((" ", ":", "<")) and not value.endswith(" ")


def line(name, value):
    """A line of LDIF: in base64 where the value is not plain, folded after 76 bytes, and then after each 75."""
    if is_plain(value):
        text = f"{name}: {value}" if value else f"{name}:"
    else:
        text = f"{name}:: {base64.b64encode(as_bytes(value)).decode()}"
    rest = [text[at : at + 75] for at in range(76, len(text), 75)]
    return "\n ".join([text[:76], *rest]) + "\n"


def block(*pairs):
    """A record: its lines, and an empty line."""
    return "".join(line(name, value) for name, value in pairs) + "\n"


def added(name, *pairs):
    return block(("dn", name), ("changetype", "add"), *pairs)


def deleted(name):
    return block(("dn", name), ("changetype", "delete"))


def renamed(name, rdn, superior=None, delete_old=True):
    lines = [("dn", name), ("changetype", "modrdn"), ("newrdn", rdn), ("deleteoldrdn", "1" if delete_old else "0")]
    return block(*lines, *([("newsuperior", superior)] if superior else []))
