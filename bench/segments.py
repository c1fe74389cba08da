"""The segments of a journal, as files of a folder, read without their digests; and the one file of a run's journal."""

import os

MARK = b"FILGJRN2"
# mark, number, digest at the end of the one before, length, settings, digest
HEAD = 8 + 8 + 8 + 4 + 12 + 8
# gate, length, digest
BESIDE = 1 + 4 + 8


def segments(folder):
    """The paths of its segments, the oldest first."""
    return [os.path.join(folder, name) for name in sorted(os.listdir(folder)) if name.startswith("journal.")]


def newest(folder):
    return segments(folder)[-1]


def blocks(data):
    """Where each block of a segment begins, and where the last one ends."""
    places = [HEAD]
    while places[-1] + BESIDE <= len(data) and data[places[-1]] != 0:
        end = places[-1] + BESIDE + int.from_bytes(data[places[-1] + 1:places[-1] + 5], "big")
        if end > len(data):
            break
        places.append(end)
    return places


def contents_of_segment(data):
    """What its blocks have; nothing where it has not begun."""
    if not data.startswith(MARK) or len(data) < HEAD:
        return []
    places = blocks(data)
    return [data[start + BESIDE:end] for start, end in zip(places, places[1:])]


def contents_of_file(data):
    """What the blocks of a run's journal have behind its head."""
    contents, place = [], 0
    while place + 5 <= len(data) and data[place] == 1:
        length = int.from_bytes(data[place + 1:place + 5], "big")
        if place + 5 + length > len(data):
            break
        contents.append(data[place + 5:place + 5 + length])
        place += 5 + length
    return contents[1:]


def bytes_of(path):
    with open(path, "rb") as file:
        return file.read()


def records(path):
    """The records of a journal, a folder or a file: tenant, session, line."""
    if os.path.isdir(path):
        contents = [content for name in segments(path) for content in contents_of_segment(bytes_of(name))]
    else:
        contents = contents_of_file(bytes_of(path))
    found = []
    for batch in contents:
        while batch:
            length = int.from_bytes(batch[5:9], "big")
            found.append((int.from_bytes(batch[:4], "big"), batch[4], batch[9:9 + length].decode("latin-1")))
            batch = batch[9 + length:]
    return found


WORD = (1 << 64) - 1


def turned(word, count):
    return (word << count | word >> (64 - count)) & WORD


def sip_round(a, b, c, d):
    a, c = a + b & WORD, c + d & WORD
    b, d = turned(b, 13) ^ a, turned(d, 16) ^ c
    a = turned(a, 32)
    c, a = c + b & WORD, a + d & WORD
    b, d = turned(b, 17) ^ c, turned(d, 21) ^ a
    return a, b, turned(c, 32), d


def digest(key, content):
    """SipHash-1-3 of the key and the content, but never 0."""
    data = key.to_bytes(8, "little") + content
    state = 0x736f6d6570736575, 0x646f72616e646f6d, 0x6c7967656e657261, 0x7465646279746573
    data += bytes(7 - len(data) % 8) + bytes([len(data) % 256])
    for at in range(0, len(data), 8):
        word = int.from_bytes(data[at:at + 8], "little")
        a, b, c, d = state
        a, b, c, d = sip_round(a, b, c, d ^ word)
        state = a ^ word, b, c, d
    a, b, c, d = state
    state = a, b, c ^ 255, d
    for _ in range(3):
        state = sip_round(*state)
    a, b, c, d = state
    return max(1, a ^ b ^ c ^ d)


def head_of(number, before, tenants, bound):
    settings = tenants.to_bytes(4, "big") + bound.to_bytes(8, "big")
    text = MARK[1:] + number.to_bytes(8, "big") + before.to_bytes(8, "big") + len(settings).to_bytes(4, "big") + settings
    own = digest(0, text)
    return b"F" + text + own.to_bytes(8, "big"), own


def batches_of(entries):
    """Records of these entries (tenant, session, line), a thousand in each batch."""
    batch = []
    for tenant, session, line in entries:
        batch.append(tenant.to_bytes(4, "big") + bytes([session]) + len(line).to_bytes(4, "big") + line)
        if len(batch) == 1000:
            yield b"".join(batch)
            batch = []
    yield b"".join(batch)


def write_segment(path, number, before, tenants, entries, bound=1000):
    """A segment of these entries. Returns the digest at its end."""
    head, chain = head_of(number, before, tenants, bound)
    with open(path, "wb") as file:
        file.write(head)
        for content in batches_of(entries):
            chain = digest(chain, content)
            file.write(b"\xff" + len(content).to_bytes(4, "big") + chain.to_bytes(8, "big") + content)
        file.write(b"\0")
    return chain


def write_file(path, tenants, entries, bound=1000):
    """A run's journal of these entries."""
    contents = [b"FILGJRN1" + tenants.to_bytes(4, "big") + bound.to_bytes(8, "big"), *batches_of(entries)]
    with open(path, "wb") as file:
        for content in contents:
            file.write(b"\x01" + len(content).to_bytes(4, "big") + content)
        file.write(b"\0")
