"""The state of all replicas and servers."""

import json

from access import Stop
from keys import Keys, agree_on_layout
from log import last_index, position_of
from safe_mode import described, state_in
from store import Store, StoreError, after


def stores_of(access):
    """The size of each server's store in bytes, None where it does not answer."""
    for server in access.urls:
        try:
            answer, _ = Store(access.alone(server), 1, 1).call("maintenance/status", {})
            leads = answer.get("leader") == answer["header"]["member_id"]
            yield {"server": server, "leads": leads, "bytes": int(answer.get("dbSize", 0))}
        except (Stop, StoreError):
            yield {"server": server, "leads": False, "bytes": None}


def overview_of(access, prefix):
    keys, store = Keys(prefix), Store(access, 1, 3)
    agree_on_layout(store, keys, writes=False)
    last = last_index(store, keys)
    leader, done = store.value(keys.leader), store.value(keys.done)
    replicas = [json.loads(entry.value)
                for entry in store.range(keys.replicas, after(keys.replicas)).entries]
    for replica in replicas:
        replica["lag"] = last - replica["applied"]
    return {
        "leader": json.loads(leader.value)["name"] if leader else None,
        "log": last,
        "answered": position_of(done)[0] - 1,
        "replicas": replicas,
        "safe_mode": state_in(store, keys, replicas),
        "servers": list(stores_of(access)),
    }


def status(words, _):
    overview = overview_of(words.etcd, words.prefix)
    if words.json:
        print(json.dumps(overview))
        return 0
    print(f"leader {overview['leader'] or 'none'}; log key {overview['log']}; "
          f"answered to {overview['answered']}")
    if overview["safe_mode"]["on"]:
        print(f"safe mode, so no rounds: {described(overview['safe_mode'])}")
    row = "{:<16} {:<8} {:>10} {:>12} {:>6} {:>12}  {}"
    print(row.format("REPLICA", "STATE", "APPLIED", "LINES", "LAG", "HASHED AT", "HASH"))
    for it in overview["replicas"]:
        state = "stopped" if "stopped" in it else "leads" if it["leads"] else "follows"
        print(row.format(it["name"], state, it["applied"], it["lines"], it["lag"], it["hashed"],
                         it["hash"][:16]))
        if "stopped" in it:
            print(f"    {it['stopped']}")
    for it in overview["servers"]:
        size = "does not answer" if it["bytes"] is None else f"{it['bytes'] / 1e6:.1f} MB"
        print(f"etcd {it['server']} {size}{', leads' if it['leads'] else ''}")
    return 0
