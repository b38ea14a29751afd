"""The encodings, digests, keys and datagrams of docs/FORMATS.md, for scripts that make up schedules of their own; the tables of texts/;
and the program run on a text."""
import hashlib
import hmac
import subprocess

NOTHING = bytes(32)
MAGIC, HEAD, TAG = b"CSP1", 17, 32
(SUBMIT, PROPOSE, ECHO, CONFIRM, CHANGE, VOTED, DECIDED, WANT, DONE, ASK, TOLD, HEAD_OF_CHECKPOINT, ASK_PROOF, PROOF) = range(1, 15)
ABORT, COMMIT, ACCEPTED, ABORTED, SKIPPED, VOID = range(6)
CLIENTS = 0xFFFF


def number(value, size):
    return value.to_bytes(size, "big")


def counted(items):
    return bytes([len(items)]) + b"".join(items)


def tagged(letter, content):
    return hashlib.sha256(letter + content).digest()


def integer(value):
    return b"\x00" + value.to_bytes(8, "big", signed=True)


def bytes_of(content):
    return b"\x02" + number(len(content), 2) + content


def name(text):
    return bytes([len(text)]) + text.encode()


def thing(contract, kind, values):
    return contract + name(kind) + counted(values)


TOKEN = hashlib.sha256(b"token").digest()


def coin(worth):
    return thing(TOKEN, "coin", [integer(worth)])


def trace(contract, method, inputs=(), references=(), parameters=(), outputs=(), returns=(), deps=()):
    """Inputs and references are pairs of a key and an object."""
    front = contract + name(method) + counted([key + it for key, it in inputs]) + counted([key + it for key, it in references])
    return front + counted(list(parameters)) + counted(list(outputs)) + counted(list(returns)) + counted([bytes([it]) for it in deps])


def transfer(inputs, outputs):
    return trace(TOKEN, "transfer", inputs, outputs=outputs)


def transaction(*traces):
    return counted(list(traces))


def session(of, place, dummies=()):
    return of + number(place, 8) + counted([number(shard, 2) + number(serial, 8) for shard, serial in dummies])


def end_of_value(content, at):
    """Behind the value that begins here."""
    if content[at] == 3:
        end = at + 2
        for _ in range(content[at + 1]):
            end = end_of_value(content, end)
        return end
    return at + {0: 9, 1: 2, 2: 3 + int.from_bytes(content[at + 1:at + 3], "big")}[content[at]]


def end_of_thing(content, at):
    return end_of_many(content, at + 33 + content[at + 32], end_of_value)


def end_of_many(content, at, end_of_one):
    end = at + 1
    for _ in range(content[at]):
        end = end_of_one(content, end)
    return end


def end_of_trace(content, at):
    end = at + 33 + content[at + 32]
    for _ in ("inputs", "references"):
        end = end_of_many(content, end, lambda it, place: end_of_thing(it, place + 32))
    for end_of_one in (end_of_value, end_of_thing, end_of_value, lambda _, place: place + 1):
        end = end_of_many(content, end, end_of_one)
    return end


def transaction_of(submitted):
    """The transaction of a session."""
    return submitted[: end_of_many(submitted, 0, end_of_trace)]


def genesis_key(place, content):
    return tagged(b"G", number(place, 4) + content)


def output_key(of, place, of_trace=0):
    return tagged(b"O", tagged(b"T", of) + number(of_trace, 2) + number(place, 2))


def shard_of(key, shards):
    return int.from_bytes(key[-4:], "big") % shards


def session_digest(of):
    return tagged(b"S", of)


def prepare(of):
    return b"\x00" + of


def decide(of, vote=COMMIT):
    return bytes([1, vote]) + of


def entry_digest(entry):
    return tagged(b"E", entry)


def parsed(node):
    """The 16-bit shard and the 16-bit index of a name."""
    shard, index = node.split(".")
    return number(CLIENTS if shard == "c" else int(shard), 2) + number(int(index), 2)


def seal(kind, sender, receiver, body, master=NOTHING):
    key = hmac.digest(master, b"key" + parsed(sender) + parsed(receiver), "sha256")
    front = MAGIC + bytes([kind]) + parsed(sender) + parsed(receiver) + number(len(body), 4) + body
    return front + hmac.digest(key, front, "sha256")


def root(leaves):
    """As in RFC 6962, section 2.1."""
    if not leaves:
        return hashlib.sha256().digest()
    if len(leaves) == 1:
        return tagged(b"\x00", leaves[0])
    half = 1 << (len(leaves) - 1).bit_length() - 1
    return tagged(b"\x01", root(leaves[:half]) + root(leaves[half:]))


def path(leaves, place):
    if len(leaves) == 1:
        return []
    half = 1 << (len(leaves) - 1).bit_length() - 1
    if place < half:
        return [*path(leaves[:half], place), root(leaves[half:])]
    return [*path(leaves[half:], place - half), root(leaves[:half])]


def leaf(slot, entry, result):
    return number(slot, 8) + number(len(entry), 4) + entry + bytes([result])


def schedule(shards, faulty, dummies, genesis=(), events=(), liars=(), contracts=(), master=NOTHING):
    lines = [f"shards {shards}", f"faulty {faulty}", f"dummies {dummies}", f"master {master.hex()}"]
    lines += [f"liar {it}" for it in liars] + [f"contract {it.hex()}" for it in contracts] + [f"genesis {it.hex()}" for it in genesis]
    return "\n".join([*lines, "run", *events, "end"]) + "\n"


def say(sender, receiver, kind, body):
    return f"say {sender} {receiver} {kind} {body.hex() or '-'}"


def inject(receiver, datagram):
    return f"inject {receiver} {datagram.hex() or '-'}"


def rows_of(path):
    """The rows of a table of texts/. Its first line says what stands in them; lines without a tab say where the answers come from."""
    for line in path.read_text().splitlines()[1:]:
        if "\t" in line:
            yield line.split("\t")


def run(program, words, text=b"", **given):
    """The status of the program, and what it printed, of which nothing may stand on standard error."""
    content = text.encode() if isinstance(text, str) else text
    ran = subprocess.run([program, *words.split()], input=content, capture_output=True, timeout=600, **given)
    return ran.returncode, ran.stdout.decode() + ran.stderr.decode()
