"""Lines that make a random small cluster, with replicas of every tag and nodes that drain."""

import json


def random_lines(chance):
    """The lines of a cluster whose blocks, nodes and replicas are drawn."""
    nodes = list(range(1, chance.randint(3, 8)))
    racks = chance.randint(1, 3)
    storages = {node: [node * 10 + disk for disk in range(chance.randint(1, 3))] for node in nodes}
    lines = [{"op": "register", "node": it, "rack": chance.randint(1, racks), "storages": storages[it]} for it in nodes]
    for node in nodes:
        free = [[it, chance.choice([0, 10, 1000, 2**40])] for it in storages[node]]
        lines.append({"op": "heartbeat", "node": node, "remaining": free})
    blocks = [chance.randrange(2**64) for _ in range(chance.randint(1, 25))]
    lines += [
        {"op": "add", "id": it, "gen": chance.randint(1, 3), "len": chance.choice([0, 1, 64, 2**27]), "repl": chance.randint(1, 4)}
        for it in blocks
    ]
    stamps = {it["id"]: (it["gen"], it["len"]) for it in lines if it["op"] == "add"}
    for block in blocks:
        holders = chance.sample(nodes, chance.randint(0, min(4, len(nodes))))
        lines += [replica(chance, block, chance.choice(storages[node]), *stamps[block]) for node in holders]
    lines += changes(chance, nodes, blocks, lines)
    return [json.dumps(line, separators=(",", ":")) for line in lines]


def replica(chance, block, storage, generation, length):
    """The line of a replica, mostly with the block's stamp."""
    if chance.random() < 0.15:
        generation += 1
    return {"op": "received", "storage": storage, "id": block, "gen": generation, "len": length}


def changes(chance, nodes, blocks, lines):
    """Adds lines for corrupt replicas, a stray one, draining nodes, and blocks that change."""
    stored = [(it["storage"], it["id"]) for it in lines if it["op"] == "received"]
    more = [{"op": "corrupt", "storage": s, "id": b} for s, b in stored if chance.random() < 0.1]
    more += [{"op": "drain", "node": node} for node in nodes if chance.random() < 0.15]
    for block in chance.sample(blocks, min(3, len(blocks))):
        more.append(
            chance.choice(
                [
                    {"op": "delete", "id": block},
                    {"op": "set_replication", "id": block, "repl": chance.randint(1, 5)},
                    {"op": "restamp", "id": block, "gen": 9, "len": 77},
                ]
            )
        )
    return more
