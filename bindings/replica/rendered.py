"""The metrics and the page of a replica, as texts."""

import html
import time

from safe_mode import described

# Levels with their meaning, as RULES has them.
MEANINGS = ("one live replica, or drained ones alone", "under a third of the wanted replicas are live",
            "fewer live replicas than wanted", "enough, but all on one rack", "missing: no usable replica")
# Seconds after which the page is loaded again.
AGAIN = 5
WIDTH, HEIGHT = 360, 60


def lag_in_lines(values, overview):
    """How many lines this replica is behind the one that has taken most."""
    others = [it["lines"] for it in overview.replicas] if overview else []
    return max([values.lines, *others]) - values.lines


# Metrics.


def families(values, overview, name):
    """Each metric: name, type, help, and values by labels. A value that is unknown is None."""
    levels, lists, last = values.levels, values.lists, values.last_rounds
    counts = levels.counts if levels else (None,) * 5
    known = levels is not None
    yield "leader", "gauge", "1 if this replica leads.", {"": int(values.leads)}
    yield ("lag_log_keys", "gauge", "Log keys that are not applied.",
           {"": max(0, overview.last - values.applied) if overview else None})
    yield ("lag_lines", "gauge", "Lines behind the replica that has taken most.",
           {"": lag_in_lines(values, overview)})
    yield ("safe_mode", "gauge", "1 in safe mode: the leader appends no rounds.",
           {"": int(overview.safe_mode["on"]) if overview else None})
    yield "values_time_seconds", "gauge", "When these values were taken, as Unix time.", {"": values.time}
    yield "lines_total", "counter", "Lines taken from the log.", {"": values.lines}
    yield "rounds_total", "counter", "Rounds in the log.", {"": values.rounds}
    yield "num_live_data_nodes", "gauge", "NumLiveDataNodes: alive DataNodes.", {"": values.nodes}
    yield ("num_decommissioning_data_nodes", "gauge",
           "NumDecommissioningDataNodes: DataNodes that drain.", {"": values.draining})
    yield "racks", "gauge", "Racks with an alive DataNode.", {"": values.racks}
    yield "storages", "gauge", "Storages of alive DataNodes.", {"": values.storages}
    yield ("capacity_remaining_bytes", "gauge",
           "CapacityRemaining: free bytes by the last heartbeats.", {"": values.free})
    yield "blocks", "gauge", "BlocksTotal: known blocks.", {"": values.blocks}
    yield ("blocks_at_level", "gauge", "Known blocks by level, the queue of HDFS.",
           {f'level="{level}"': count for level, count in enumerate(counts)})
    yield ("under_replicated_blocks", "gauge", "UnderReplicatedBlocks: known blocks at any level.",
           {"": sum(counts) if known else None})
    yield "missing_blocks", "gauge", "MissingBlocks: known blocks at level 4.", {"": counts[4]}
    yield ("levels_line", "gauge", "The line at which the last scan of levels began.",
           {"": levels.line if known else None})
    yield ("corrupt_blocks", "gauge", "CorruptBlocks: blocks with a stale or bad replica.",
           {"": lists and lists.corrupt})
    yield "excess_blocks", "gauge", "ExcessBlocks: replicas in excess.", {"": lists and lists.excess}
    yield ("lists_line", "gauge", "The line at which corrupt and excess replicas were counted.",
           {"": lists and lists.line})
    yield ("pending_replication_blocks", "gauge",
           "PendingReplicationBlocks: blocks with copies on their way.", {"": values.pending})
    yield "copies_total", "counter", "Copies that rounds have commanded.", {"": values.copies}
    yield "deletes_total", "counter", "Deletes that rounds have commanded.", {"": values.deletes}
    yield ("last_round_copies", "gauge", "Copies that the last round has commanded.",
           {"": last[-1].copies if last else None})
    yield ("last_round_deletes", "gauge", "Deletes that the last round has commanded.",
           {"": last[-1].deletes if last else None})


def metrics(values, overview, name):
    """Prometheus' text format."""
    quoted = name.replace("\\", "\\\\").replace('"', '\\"')
    lines = []
    for metric, kind, help_, found in families(values, overview, name):
        metric = f"puljemrod_{metric}"
        samples = [
            f'{metric}{{replica="{quoted}"{"," * bool(labels)}{labels}}} {value}'
            for labels, value in found.items() if value is not None
        ]
        if samples:
            lines += [f"# HELP {metric} {help_}", f"# TYPE {metric} {kind}", *samples]
    return "\n".join(lines) + "\n"


# The page.

STYLE = """
:root { color-scheme: light dark; --line: #8884; --weak: #8888; --good: #2a7; --bad: #d33 }
* { box-sizing: border-box }
body { font: 15px/1.4 system-ui, sans-serif; margin: 0 auto; max-width: 1500px; padding: 12px }
h1 { font-size: 1.3em; margin: 0 } h2 { font-size: 1em; margin: 24px 0 6px }
p { margin: 4px 0 } .weak { opacity: .7; font-size: .9em }
.state { color: #fff; border-radius: 4px; padding: 1px 8px; background: var(--good) }
.state.bad, .state.stopped { background: var(--bad) }
.tiles, .charts { display: grid; gap: 8px; margin-top: 12px }
.tiles { grid-template-columns: repeat(auto-fill, minmax(130px, 1fr)) }
.tiles div, .charts div { border: 1px solid var(--line); border-radius: 6px; padding: 6px 10px }
.tiles b { display: block; font-size: 1.35em; font-variant-numeric: tabular-nums }
.wrong { color: var(--bad) }
.wide { overflow-x: auto } .columns { display: grid; gap: 0 32px }
@media (max-width: 500px) { th, td { padding: 3px 4px; font-size: .93em } }
@media (min-width: 1000px) {
    .columns { grid-template-columns: 1fr 1fr } .tiles { grid-template-columns: repeat(6, 1fr) }
    .charts { grid-template-columns: repeat(4, 1fr) }
}
.columns > div { min-width: 0 }
table { border-collapse: collapse; width: 100%; font-variant-numeric: tabular-nums }
th, td { text-align: right; padding: 3px 8px; border-bottom: 1px solid var(--line); white-space: nowrap }
th { font-weight: 600; opacity: .7 } th:first-child, td:first-child { text-align: left }
.last-text td:last-child { white-space: normal } .last-text :is(td, th):last-child { text-align: left }
svg { display: block; width: 100%; height: 60px }
polyline { fill: none; stroke: currentColor; stroke-width: 1.5; vector-effect: non-scaling-stroke }
"""


def number(value):
    return "?" if value is None else f"{value:,}"


def size(value):
    for unit in ("bytes", "kB", "MB", "GB", "TB", "PB"):
        if value < 1000 or unit == "PB":
            return f"{value:,.0f} {unit}" if unit == "bytes" else f"{value:,.1f} {unit}"
        value /= 1000


def row(cells, tag="td"):
    return "<tr>" + "".join(f"<{tag}>{cell}</{tag}>" for cell in cells) + "</tr>"


def table(title, head, rows, note="", kind=""):
    body = "".join(row(cells) for cells in rows)
    note = f"<p class=weak>{note}</p>" if note else ""
    return (f"<h2>{title}</h2>{note}<div class=wide><table class='{kind}'>{row(head, 'th')}{body}"
            "</table></div>")


def fault(text):
    return f"<p class=wrong>{html.escape(text)}</p>"


def tile(name, value, wrong=False):
    return f"<div><b{' class=wrong' * wrong}>{value}</b>{name}</div>"


def chart(title, points, now, seconds):
    """A line of the last hour. Points are pairs of time and value."""
    known = [(at, value) for at, value in points if value is not None]
    if not known:
        return f"<div>{title}<p class=weak>no values yet</p></div>"
    top = max(1, max(value for _, value in known))
    line = " ".join(
        f"{WIDTH * (1 - (now - at) / seconds):.1f},{HEIGHT - 2 - (HEIGHT - 4) * value / top:.1f}"
        for at, value in known
    )
    last = known[-1][1]
    return (f"<div>{title}: {last:,.0f} <span class=weak>at most {top:,.0f}</span>"
            f'<svg viewBox="0 0 {WIDTH} {HEIGHT}" preserveAspectRatio=none role=img>'
            f'<title>{title}, the last hour</title><polyline points="{line}"/></svg></div>')


def charts(points, now, seconds):
    pairs = list(zip(points, points[1:]))
    a_second = [(it.time, (it.lines - old.lines) / (it.time - old.time)) for old, it in pairs]
    copies = [(it.time, it.copies - old.copies) for old, it in pairs]
    under = [(it.time, it.levels and sum(it.levels)) for it in points]
    missing = [(it.time, it.levels and it.levels[4]) for it in points]
    shown = (("lines a second", a_second), ("under-replicated blocks", under),
             ("missing blocks", missing), ("copies in 10 seconds", copies))
    drawn = "".join(chart(title, found, now, seconds) for title, found in shown)
    return f"<h2>The last hour</h2><div class=charts>{drawn}</div>"


def replicas(overview):
    for it in sorted(overview.replicas, key=lambda it: it["name"]):
        state = "stopped" if "stopped" in it else "leads" if it["leads"] else "follows"
        most = max(other["lines"] for other in overview.replicas)
        yield (html.escape(it["name"]), state, number(it["lines"]), number(most - it["lines"]),
               number(max(0, overview.last - it["applied"])), html.escape(it["hash"][:12]) or "none")


def of_blocks(values):
    """How current the counts of blocks are."""
    if not values.asks:
        return "This replica runs the line tool, and asks no queries: levels are not known."
    if not values.levels:
        return "The first scan of all blocks has not ended."
    text = (f"Levels were scanned from line {number(values.levels.line)} on, "
            f"in {values.levels.seconds:,.0f} s. ")
    if values.lists:
        return text + f"Corrupt and excess replicas are those of line {number(values.lists.line)}."
    return text + "Only followers list corrupt and excess replicas of this many blocks."


def first_of(shown, count):
    return f"These are {len(shown)} of {number(count)}. " if len(shown) < count else ""


def page(values, overview, name, reasons, points, seconds):
    """The page, which needs nothing else."""
    now, levels, lists = time.time(), values.levels, values.lists
    counts = levels.counts if levels else (None,) * 5
    under = sum(levels.counts) if levels else None
    escaped = html.escape(name)
    state = "leads" if values.leads else "follows"
    leader = html.escape(overview.leader or "none") if overview else "?"
    last = values.last_rounds
    tiles = "".join((
        tile("leader", leader, leader == "none"),
        tile("lines taken", number(values.lines)),
        tile("lines behind", number(lag_in_lines(values, overview))),
        tile("nodes", number(values.nodes) + (f", {values.draining:,} drain" if values.draining else "")),
        tile("free", size(values.free)),
        tile("known blocks", number(values.blocks)),
        tile("missing", number(counts[4]), bool(counts[4])),
        tile("under-replicated", number(under)),
        tile("blocks with corrupt replicas", number(lists and lists.corrupt), bool(lists and lists.corrupt)),
        tile("excess replicas", number(lists and lists.excess)),
        tile("blocks with copies on their way", number(values.pending)),
        tile("rounds", number(values.rounds)),
    ))
    of_levels = [(level, number(count), MEANINGS[level]) for level, count in enumerate(counts)]
    of_rounds = [(number(it.number), number(it.line), number(it.copies), number(it.deletes)) for it in reversed(last)]
    of_racks = [(it.number, number(it.nodes), number(it.storages), size(it.free)) for it in sorted(values.some_racks)]
    of_nodes = [
        (it.number, it.rack, number(it.storages), size(it.free), number(it.line) if it.line else "none",
         "drains" if it.drains else "")
        for it in values.some_nodes
    ]
    if overview and overview.safe_mode["on"]:
        reasons = [*reasons, f"safe mode, so no rounds: {described(overview.safe_mode)}"]
    stops = [f"{it['name']}: {it['stopped']}" for it in overview.replicas if "stopped" in it] if overview else []
    return f"""<!DOCTYPE html>
<html lang=en><head><meta charset=utf-8><title>{escaped} {state}</title>
<meta name=viewport content="width=device-width, initial-scale=1">
<meta http-equiv=refresh content={AGAIN}><style>{STYLE}</style></head><body>
<h1>{escaped} <span class="state{' bad' * bool(reasons)}">{state}</span></h1>
<p class=weak>Values of line {number(values.lines)}, {time.strftime('%Y-%m-%d %H:%M:%S', time.gmtime(values.time))} UTC</p>
{''.join(map(fault, reasons))}<div class=tiles>{tiles}</div>
{charts(list(points), now, seconds)}
{table('Replicas', ('name', 'state', 'lines', 'lines behind', 'keys behind', 'hash'), replicas(overview) if overview else [])}
{''.join(map(fault, stops))}
<div class=columns><div>
{table('Blocks by level', ('level', 'blocks', 'which'), of_levels, of_blocks(values), 'last-text')}
{table('The last rounds', ('round', 'line', 'copies', 'deletes'), of_rounds)}
</div><div>
{table('Racks', ('rack', 'nodes', 'storages', 'free'), of_racks, first_of(of_racks, values.racks))}
{table('Nodes', ('node', 'rack', 'storages', 'free', 'heartbeat', ''), of_nodes, first_of(of_nodes, values.nodes) + 'Those come first whose last heartbeat, shown by its line, is the oldest.')}
</div></div></body></html>
"""
