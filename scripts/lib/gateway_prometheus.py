"""The gateway beside prometheus: what promtool is told, and what a prometheus writes that scrapes for a while."""
import contextlib
import json
import os
import shutil
import time
from decimal import ROUND_HALF_EVEN, Decimal

from built_program import require
from gateway_server import free_port
from gateway_trials import MOST_SECONDS, T, compare, need, raw, run, server, until

SCRAPED = 30  # seconds that prometheus scrapes for, each five; scripts/hand/gateway --seconds says another time
MOST = 10**15  # the size of a value with three decimals that a store keeps; node-exporter tells greater ones


def try_promtool(gateway, _folder):
    need("promtool")
    model = {T + at: Decimal(at * 13 % 977) for at in range(3000)}
    require(gateway.write("\n".join(f"m,k=x v={value} {at}" for at, value in model.items()))[0] == 204, "write")
    url = f"http://127.0.0.1:{gateway.port}"
    words = ("-o", "json", f"--start={T + 60}", f"--end={T + 2990}", "--step=30s", url, "max_over_time(m_v[30s])")
    told = json.loads(run("promtool", "query", "range", *words))
    found = {int(at): Decimal(value) for at, value in told[0]["values"]}
    expected = {at: max(model[one] for one in range(at - 29, at + 1)) for at in range(T + 60, T + 2991, 30)}
    require(found == expected, "promtool's range")
    require("m_v" in run("promtool", "query", "series", "--match", '{k="x"}', url), "promtool's series")
    require("m_v" in run("promtool", "query", "labels", url, "__name__"), "promtool's labels")
    told = json.loads(run("promtool", "query", "instant", "-o", "json", url, "1 + 1"))
    require(json.dumps(told).find('"2"') >= 0, f"promtool's instant: {told}")
    return len(expected)


PROMETHEUS = """global: {{scrape_interval: 5s}}
scrape_configs:
  - job_name: gateway
    static_configs: [{{targets: [{targets}]}}]
remote_write:
  - url: http://127.0.0.1:{port}/api/v1/write
    queue_config: {{batch_send_deadline: 1s}}
"""


def prometheus(folder, gateway, targets):
    """A prometheus that scrapes some targets each second, and writes to a gateway; its own address."""
    own = free_port()
    with open(os.path.join(folder, "prometheus.yml"), "w") as file:
        file.write(PROMETHEUS.format(port=gateway.port, targets=", ".join(f"'127.0.0.1:{port}'" for port in targets)))
    words = (f"--config.file={folder}/prometheus.yml", f"--storage.tsdb.path={folder}/data", f"--web.listen-address=127.0.0.1:{own}")
    return own, server(os.path.join(folder, "prometheus.log"), shutil.which("prometheus"), *words)


def prometheus_values(port, query):
    """What prometheus itself keeps of a query, as the slots of a gateway have it."""
    told = json.loads(run("curl", "-sS", "-G", f"http://127.0.0.1:{port}/api/v1/query", "--data-urlencode", f"query={query}"))
    found = {}
    for one in told["data"]["result"]:
        pairs = [(int(at), Decimal(value)) for at, value in one["values"]]
        slots = {at: value.quantize(Decimal("0.001"), ROUND_HALF_EVEN) for at, value in pairs if value.is_finite() and abs(value) <= MOST}
        found[tuple(sorted(one["metric"].items()))] = slots
    return found


QUERIED = (
    "up", "node_load1", "node_memory_MemFree_bytes", "node_memory_Cached_bytes", "scrape_samples_scraped", "zurtkvani_gateway_points_total",
    "node_network_receive_bytes_total", "node_filesystem_avail_bytes",
)
FUNCTIONS = ("min_over_time", "max_over_time", "last_over_time", "count_over_time")
STEP = 30


def told_by_promtool(port, query, first, last):
    """What promtool is told of a range: by their labels the values by their times, as the slots of a gateway have them."""
    words = ("-o", "json", f"--start={first}", f"--end={last}", f"--step={STEP}s", f"http://127.0.0.1:{port}", query)
    found = {}
    for one in json.loads(run("promtool", "query", "range", *words)):
        found[tuple(sorted(one["metric"].items()))] = {
            at: Decimal(value).quantize(Decimal("0.001"), ROUND_HALF_EVEN) for at, value in one["values"]
        }
    return found


def compare_queries(theirs, ours, first, last):
    """Asks prometheus and the gateway the same by promtool, up to a time that both have all of."""
    count = 0
    # A slot begins with a second. So just before the end of a second both have seen the same, and prometheus counts the begin of a range as in it.
    first, last = int(first) + STEP + 0.999, int(last) - 1 + 0.999
    for name in QUERIED:
        for function in FUNCTIONS:
            asked = [f'{function}({name}{{job="gateway"}}[{length}])' for length in (f"{STEP}s", f"{1000 * STEP - 1}ms")]
            count += compare(told_by_promtool(ours, asked[0], first, last), told_by_promtool(theirs, asked[1], first, last), asked[0])
    require(count > 0, "promtool is told nothing")
    return count


def has_all(found, expected):
    """Whether there is for each series what is no earlier than the last value that is expected."""
    return all(not values or max(found.get(key, [0])) >= max(values) for key, values in expected.items())


def try_prometheus(gateway, folder):
    need("prometheus", "curl")
    with contextlib.ExitStack() as stack:
        targets = [gateway.port]
        if shutil.which("prometheus-node-exporter"):
            targets.append(free_port())
            words = ("prometheus-node-exporter", f"--web.listen-address=127.0.0.1:{targets[-1]}")
            stack.enter_context(server(os.path.join(folder, "node.log"), *words))
        own, running = prometheus(folder, gateway, targets)
        stack.enter_context(running)
        time.sleep(SCRAPED)
        query = '{job="gateway"}[1h]'
        theirs = prometheus_values(own, query)
        last = max(at for values in theirs.values() for at in values)
        # Series come by several queues, so that some are there before others.
        until(lambda: has_all(raw(gateway, query, time.time()), theirs), "remote write doesn't come", 2 * MOST_SECONDS)
        ours = raw(gateway, query, time.time())
        first = min(at for values in theirs.values() for at in values)
        queried = compare_queries(own, gateway.port, first, last) if shutil.which("promtool") else 0
    kept = {key: {at: value for at, value in ours.get(key, {}).items() if at <= last} for key in theirs}
    require(len(theirs) > 20, f"prometheus has {len(theirs)} series alone")
    return compare(kept, theirs, "prometheus") + queried
