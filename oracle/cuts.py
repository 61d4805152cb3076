"""Smaller inputs made of one: tables without a row, a reply without a node, a node in place of the one around it."""

import re

TOKEN = re.compile(rb'[\t\n\x0c\r ]+|;[^\n]*|[()]|"(?:[^"]|"")*"|#[bx]?[0-9a-fA-F]*|[0-9]+|[^();"#\t\n\x0c\r ]+')


def tree(reply):
    """Nested lists of tokens, or None where the brackets do not match."""
    root, at = [], 0
    open_lists = [root]
    while at < len(reply):
        found = TOKEN.match(reply, at)
        if not found:
            return None
        at, token = found.end(), found[0]
        if token == b"(":
            open_lists[-1].append([])
            open_lists.append(open_lists[-1][-1])
        elif token == b")":
            open_lists.pop()
            if not open_lists:
                return None
        elif token[:1] not in b"\t\n\x0c\r ;":
            open_lists[-1].append(token)
    return root[0] if len(root) == 1 and len(open_lists) == 1 else None


def written(node):
    return node if isinstance(node, bytes) else b"(" + b" ".join(map(written, node)) + b")"


def changed(node):
    """Every node that is this one without a part somewhere, or with a part in place of the node around it."""
    if isinstance(node, bytes):
        return
    yield from node
    for at, part in enumerate(node):
        yield node[:at] + node[at + 1:]
        for other in changed(part):
            yield node[:at] + [other] + node[at + 1:]


def shorter(reply):
    """The reply without some of its bytes."""
    size = len(reply) // 2
    while size:
        for at in range(0, len(reply), size):
            yield reply[:at] + reply[at + size:]
        size //= 2


def fewer(tables):
    """The tables without one of their lines."""
    lines = tables.split(b"\n")
    for at in range(len(lines) - 1):
        yield b"\n".join(lines[:at] + lines[at + 1:])


def smaller(tables, reply):
    """Tables and reply, smaller by one cut than what is given, the smallest first."""
    node = tree(reply)
    replies = map(written, (node, *changed(node))) if node is not None else shorter(reply)
    found = {(tables, one) for one in replies if len(one) < len(reply)} | {(one, reply) for one in fewer(tables)}
    return sorted(found, key=lambda parts: (sum(map(len, parts)), parts))
