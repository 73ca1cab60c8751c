"""The gateway behind nginx with TLS: writes, queries, and the page with its stream of events."""
import http.client
import json
import os
import shutil
import ssl
from decimal import Decimal

from built_program import require
from gateway_server import free_port
from gateway_trials import MOST_SECONDS, T, compare, labels, need, run, server, stored, succeeds, until
from page_viewer import Viewer, drawn

CHANGED = 2500  # the time of what is written while somebody looks
NGINX = """{user}daemon off; pid {folder}/nginx.pid; error_log {folder}/nginx.log;
events {{ }}
http {{
  access_log off; client_body_temp_path {folder}/body; proxy_temp_path {folder}/proxy; fastcgi_temp_path {folder}/f;
  uwsgi_temp_path {folder}/u; scgi_temp_path {folder}/s;
  server {{
    listen 127.0.0.1:{own} ssl;
    ssl_certificate {folder}/own.pem; ssl_certificate_key {folder}/own.key;
    location / {{ proxy_pass http://127.0.0.1:{port}; client_max_body_size 16m; proxy_read_timeout 60s; }}
  }}
}}
"""


def watch_through(port, context, gateway, model, words):
    """Looks through a proxy as the page does: the pictures of a view behind an edit that was told."""
    viewer = Viewer(port, 9)
    viewer.connect = lambda: http.client.HTTPSConnection("localhost", port, timeout=MOST_SECONDS, context=context)
    viewer.open()
    viewer.listen().pictures(words)
    model[T + CHANGED] = Decimal(-5)
    require(gateway.write(f"m v=-5 {T + CHANGED}")[0] == 204, "write")
    while "m_v" not in viewer.changed():
        pass
    pictures = viewer.pictures(words)
    viewer.close()
    return pictures


def try_nginx(gateway, folder):
    need("nginx", "openssl", "curl")
    own = free_port()
    with open(os.path.join(folder, "nginx.conf"), "w") as file:
        # Workers that are handed on to another user couldn't enter the folder.
        file.write(NGINX.format(folder=folder, own=own, port=gateway.port, user="user root; " if os.geteuid() == 0 else ""))
    own_name = ("-subj", "/CN=localhost", "-days", "1", "-keyout", f"{folder}/own.key", "-out", f"{folder}/own.pem")
    run("openssl", "req", "-x509", "-newkey", "rsa:2048", "-nodes", *own_name)
    nginx = shutil.which("nginx") or "/usr/sbin/nginx"
    model = {T + at: Decimal(at) for at in range(2000)}
    url = f"https://localhost:{own}"
    curl = ("curl", "-sS", "--cacert", f"{folder}/own.pem", "--resolve", f"localhost:{own}:127.0.0.1")
    with server(os.path.join(folder, "nginx.out"), nginx, "-p", folder, "-c", f"{folder}/nginx.conf"):
        until(lambda: succeeds(*curl, f"{url}/ping"), "nginx doesn't answer")
        lines = "".join(f"m v={value} {at}\n" for at, value in model.items())
        status = run(*curl, "-o", "/dev/null", "-w", "%{http_code}", "--data-binary", "@-", f"{url}/write?precision=s", text=lines)
        require(status == "204", f"a write through nginx is answered {status}")
        answer = json.loads(run(*curl, "-G", f"{url}/api/v1/query?time={T + 9999}", "--data-urlencode", "query=m_v[1d]"))
        words = f"m_v 300 100 {T} {T + 3000} auto"
        picture = watch_through(own, ssl.create_default_context(cafile=f"{folder}/own.pem"), gateway, model, words)
    found = {at: Decimal(value) for at, value in answer["data"]["result"][0]["values"]}
    require(found == {at: value for at, value in model.items() if at != T + CHANGED}, "nginx: other values are read than written")
    require(gateway.stop() == 0, "the gateway's end")
    require(picture == drawn(os.path.join(gateway.stores, "gateway.store"), [words]), "nginx: the page draws another picture")
    return compare(stored(gateway), {labels("m_v"): model}, "nginx")
