"""The rules of the files of deploy/, each with the test that fails when it is taken out."""
from __future__ import annotations

import pathlib
import shutil
from collections.abc import Iterable
from typing import NamedTuple

from support.program import ROOT


class Edit(NamedTuple):
    """A text of a file of deploy/ and what takes its place."""
    file: str
    old: str
    new: str = ""


class Rule(NamedTuple):
    """A test of tests/service, and what takes the rule out."""
    module: str
    test: str
    edits: tuple[Edit, ...]


def of(test: str, *edits: tuple[str, ...]) -> Rule:
    module, _, name = test.partition(": ")
    return Rule(f"test_service_{module}.py", f"test_{name.replace(' ', '_')}", tuple(Edit(*words) for words in edits))


def any_desk(route: str) -> tuple[str, ...]:
    """Lets every body through to a route."""
    passed = f";\n            proxy_pass http://queue/{route};"
    return NGINX, "X-Allowed $body_is_own" + passed, "X-Allowed yes" + passed


ALLOWED = "http-request deny deny_status 403 unless { req.hdr(X-Allowed) -m str yes }"
NGINX, QUEUE, DESK, QUEUE_UNIT = "nginx.conf", "queue.cfg", "muni.service", "muni-queue.service"
STORES, ISSUES = "stores.cfg", "issues"
NAMED = 'geo $is_unlimited {\n        default "";'
UNLIMITED = Edit(NGINX, NAMED, NAMED + "\n        127.0.0.0/8 yes;")
REFUSED = " {\n            return 403;\n        }"
AMENDING = "proxy_set_header X-Allowed $adds_issues;\n            proxy_pass http://queue/amendments;"
ISSUE = '{9})$" {\n            proxy_set_header X-Allowed '

DOUBTED = ("http-request deny deny_status 503 if "
           "{ str(/doubts/),concat(,txn.store,/),concat(,txn.cusip),table_gpt0(doubts) gt 0 }")

RULES: dict[str, Rule] = {
    "password": of(
        "log_in: without a password nothing is answered",
        (NGINX, "auth_basic desk;")),
    "delay of a guess": of(
        "log_in: a wrong password is told after a second",
        (NGINX, "auth_delay 1s;")),
    "words of a refusal": of(
        "log_in: without a password a browser is told to ask for one",
        (NGINX, "error_page 401 403 404 405 412 413 416 429 500 502 503 504 @phrase;")),
    "content policy": of(
        "log_in: the page runs nothing of others",
        (NGINX, "default-src 'self'; ")),
    "no cache": of(
        "log_in: the right password is let in and the answer is not stored",
        (NGINX, "add_header Cache-Control no-store always;")),
    "name of the host": of(
        "names: another host is refused",
        (NGINX, 'return 421 "421 Misdirected Request\\n";')),
    "name of the handshake": of(
        "names: another name gets no handshake",
        (NGINX, "ssl_reject_handshake on;",
         "ssl_certificate /etc/muni/cert.pem; ssl_certificate_key /etc/muni/key.pem;")),
    "versions of TLS": of(
        "names: a handshake is of a version of today",
        (NGINX, "ssl_protocols TLSv1.2 TLSv1.3; ")),
    "Origin": of(
        "foreign_pages: a form of a foreign page enters no trade",
        (NGINX, "if ($foreign_origin)" + REFUSED)),
    "Sec-Fetch-Site": of(
        "foreign_pages: a foreign page reads nothing",
        (NGINX, "if ($foreign_fetch)" + REFUSED)),
    "link to the page": of(
        "foreign_pages: a link of a foreign page leads to the page",
        (NGINX, '"~^/ " "";')),
    "desk of a path": of(
        "paths: the desk of another is not read",
        (NGINX, "X-Allowed $path_is_own;", "X-Allowed yes;")),
    "path as it came": of(
        "paths: the desk of another is not read",
        (NGINX, "map $request_uri $desk_of_path", "map $uri $desk_of_path")),
    "paths of a desk": of(
        "paths: an own desk is read",
        (NGINX, "~^/(?:trades|lists|latest|positions)/(?<in_path>", "~^/(?:trades|lists)/(?<in_path>")),
    "path of a version": of(
        "paths: an own desk is read",
        (NGINX, "(?:/[A-Za-z0-9]{1,20}){0,2}", "(?:/[A-Za-z0-9]{1,20})?")),
    "terms of an issue": of(
        "issues: the terms of an issue are read by all who may quote",
        (NGINX, ISSUE + "yes;", ISSUE + "$adds_issues;")),
    "several desks": of(
        "paths: an own desk is read",
        (NGINX, "(?:[A-Z0-9]+ )*(?<own_path>", "(?<own_path>")),
    "fields of the client": of(
        "paths: a field of the client opens no desk",
        (NGINX, "proxy_pass_request_headers off;"),
        (NGINX, "proxy_set_header X-Allowed $path_is_own;")),
    "refusal of the queue": of(
        "paths: the desk of another is not read",
        (QUEUE, ALLOWED)),
    "method": of(
        "paths: another method is told which one is allowed",
        (NGINX, "if ($other_method) {\n            return 405;\n        }")),
    "desk of a trade": of(
        "bodies: a trade of another desk is not entered",
        any_desk("trades")),
    "desk of a correction": of(
        "bodies: a trade of another desk is not changed",
        any_desk("corrections")),
    "desk of a cancel": of(
        "bodies: a trade of another desk is not changed",
        any_desk("cancels")),
    "desk of a check": of(
        "checks: figures of the trades of another desk are not checked",
        (NGINX, "X-Allowed $check_is_own;", "X-Allowed yes;")),
    "a check that names no desk": of(
        "checks: figures of the trades of another desk are not checked",
        (NGINX, '(?![^\\x5C]*"desk"\\s*:)')),
    "no backslash in a check": of(
        "checks: figures of the trades of another desk are not checked",
        (NGINX, '[^\\x5C]*+\\z', '(?s:.*)\\z')),
    "a check that is not seen": of(
        "checks: what names no members or has a backslash is refused",
        (NGINX, '~\\A\\s*+\\{', '~\\A')),
    "name once": of(
        "bodies: a trade of another desk is not entered",
        (NGINX, '*+"desk"\\s*+:', '*"desk"\\s*+:'), (NGINX, '(?!desk")')),
    "no backslash": of(
        "bodies: a trade of another desk is not entered",
        (NGINX, '[^"\\x5C]', '[^"]')),
    "body in memory": of(
        "bodies: a trade of the own desk is entered",
        (NGINX, "client_body_buffer_size 80k;")),
    "who adds issues": of(
        "issues: an issue is added by who may and then quoted by all",
        (NGINX, "X-Allowed $adds_issues;", "X-Allowed yes;")),
    "who amends issues": of(
        "issues: an issue is amended by who may and its terms are read by all",
        (NGINX, AMENDING, AMENDING.replace("$adds_issues", "yes"))),
    "route of amendments": of(
        "issues: an issue is amended by who may and its terms are read by all",
        (NGINX, AMENDING)),
    "size of a body": of(
        "sizes: a body of a size",
        (NGINX, "client_max_body_size 64k;", "client_max_body_size 0;")),
    "size of a head": of(
        "sizes: a head of fields of 3 000 bytes",
        (NGINX, "large_client_header_buffers 4 4k;")),
    "test of nginx": of(
        "users: a name that nginxs maps do not take is put back",
        ("user", 'if ! $nginx -t -q', "if ! true")),
    "files put back": of(
        "users: a name that nginxs maps do not take is put back",
        ("user", '[ -z "$changed" ] || put_back')),
    "one line for a user": of(
        "users: a user reads the desks that she is given",
        ("user", "{ line(); next }", "{ line() }")),
    "what nginx is told": of(
        "users: a user reads the desks that she is given",
        ("user", "$nginx -s reload", "true")),
    "small letters": of(
        "users: words are refused and nothing is changed",
        ("user", "*[a-z]*)", "-)")),
    "forms of a map": of(
        "users: a line of another form is told with its place",
        ("user", "$0 !~ form {", "0 {")),
    "old names": of(
        "users: what a map has of a user who is gone is not given to one of his name",
        ("user", "        desks=\n        adds_issues=\n    else", "        true\n    else")),
    "requests at once": of(
        "limits: more guesses at once than an address may ask are refused",
        (NGINX, "limit_conn at_once 40;")),
    "requests in a second": of(
        "limits: more requests in a second than an address may ask end the connection",
        (NGINX, "limit_req zone=in_a_second burst=200 nodelay;")),
    "status of a limit": of(
        "limits: more guesses at once than an address may ask are refused",
        (NGINX, "limit_conn_status 429;")),
    "limit of each address": of(
        "limits: another address is answered at once meanwhile",
        (NGINX, '"" $binary_remote_addr;', '"" all;')),
    "connections without a password": of(
        "limits: no connection stays without a password",
        (NGINX, "            keepalive_timeout 0;\n")),
    "addresses without a limit": of(
        "unlimited: guesses of an address that is not limited are all answered",
        (NGINX, "        127.0.0.0/8 yes;\n")),
    "user of a guess": of(
        "guesses: who guesses is found and no other",
        ("fail2ban-filter.conf", '(?:[^"\\\\]|\\\\.)+', ".*")),
    "status of a guess": of(
        "guesses: who guesses is found and no other",
        ("fail2ban-filter.conf", '"status":"401",', '"status":"4..",')),
    "version of nginx": of(
        "statuses: a request is answered by its status",
        (NGINX, "server_tokens off;")),
    "size of a line": of(
        "statuses: a request is answered by its status",
        (NGINX, "large_client_header_buffers 4 4k;")),
    "words of a name": of(
        "statuses: a request is answered by its status",
        (NGINX, ' "421 Misdirected Request\\n"')),
    "time of a head": of(
        "slow_clients: no slow client is kept",
        (NGINX, "client_header_timeout 5s;")),
    "time of a body": of(
        "slow_clients: no slow client is kept",
        (NGINX, "client_body_timeout 5s;")),
    "whole requests": of(
        "slow_clients: others are answered in 50 ms",
        (NGINX, "proxy_request_buffering on;", "proxy_request_buffering off;"),
        (QUEUE, "option http-buffer-request")),
    "files of nginx": of(
        "slow_clients: nginx has files for its connections",
        (NGINX, "worker_rlimit_nofile 16384;")),
    "network of the desk": of(
        "doors: the port is not reached by another user",
        (DESK, "PrivateNetwork=yes")),
    "rights of the socket": of(
        "doors: the socket is reached by nginx alone",
        (QUEUE_UNIT, "RuntimeDirectoryMode=0750", "RuntimeDirectoryMode=0755"),
        (QUEUE, "mode 660", "mode 666")),
    "rights of the folder": of(
        "doors: the rights of a folder the socket and the store",
        (QUEUE_UNIT, "RuntimeDirectoryMode=0750", "RuntimeDirectoryMode=0755")),
    "rights of the store's folder": of(
        "doors: the rights of a folder the socket and the store",
        (DESK, "StateDirectoryMode=0700", "StateDirectoryMode=0755")),
    "rights of new files": of(
        "doors: the rights of a folder the socket and the store",
        (DESK, "UMask=0077", "UMask=0022")),
    "one at a time": of(
        "queue: a desk that stands still has one request while others wait",
        (QUEUE, "8735 maxconn 1", "8735")),
    "what is sent again": of(
        "restarts: trades are entered while the desk ends and is killed",
        (QUEUE, "retry-on conn-failure empty-response junk-response")),
    "greatest request": of(
        "restarts: a trade in the hands of a desk that is killed is sent again",
        (QUEUE, "tune.bufsize 98304")),
    "how often": of(
        "restarts: a trade waits for a desk that does not come back for two seconds",
        (QUEUE, "retries 300")),
    "length of the queue": of(
        "busy: who would be the fourth to wait is refused at once",
        (QUEUE, "http-request deny deny_status 503 if { queue(desk) ge 3 }")),
    "when to come again": of(
        "busy: who is refused is told when to come again",
        (NGINX, "add_header Retry-After $again_after always;")),
    "who left": of(
        "busy: a trade of a client that left before its turn is not entered",
        (QUEUE, "option abortonclose")),
    "log as JSON": of(
        "log: each request has a line of json",
        (NGINX, "escape=json")),
    "user in the log": of(
        "log: a line tells the user the status and who answered",
        (NGINX, '"user":"$logged_user",')),
    "long names in the log": of(
        "log: of what is refused the log has the beginning",
        (NGINX, '"user":"$logged_user"', '"user":"$remote_user"')),
    "who answered, in the log": of(
        "log: a line tells the user the status and who answered",
        (NGINX, '"~^queue " queue;')),
    "who answers what is no HTTP, in the log": of(
        "log: a line tells the user the status and who answered",
        (NGINX, '"~^ text/html" queue;')),
    "body in the log": of(
        "log: a line has the request and the body",
        (NGINX, ',"body":"$logged_body"')),
    "body of a refused request in the log": of(
        "log: of what is refused the log has the beginning",
        (NGINX, "default $body_beginning;", "default $request_body;")),
    "long requests in the log": of(
        "log: of what is refused the log has the beginning",
        (NGINX, '"request":"$logged_request"', '"request":"$request"')),
    "large bodies": of(
        "limits: of large bodies an address may send few",
        (NGINX, "limit_req zone=large burst=4 nodelay;")),
    "paths that are none": of(
        "limits: paths that are none are counted",
        (NGINX, "try_files /none =404;", "return 404;")),
    "lines of the error log": of(
        "log: nobody begins a line of the error log",
        (NGINX, "if ($has_control) {\n            return 400;\n        }")),
    "store of a desk": of(
        "stores: the trades of a desk are in its store alone",
        (NGINX, "proxy_set_header X-Desk $desk_of_path;")),
    "store of the desk of a body": of(
        "stores: the trades of a desk are in its store alone",
        (NGINX, "proxy_set_header X-Desk $desk_of_body;")),
    "store of no name": of(
        "stores: a desk of a store that is none is not kept in the first",
        (QUEUE, "http-request deny deny_status 503 unless { var(txn.store),nbsrv ge 0 }")),
    "stores that a client names": of(
        "stores: a field of the client leads to no other store",
        (NGINX, "proxy_pass_request_headers off;"), (NGINX, "proxy_set_header X-Desk $desk_of_path;"),
        (NGINX, "proxy_set_header X-Desk $desk_of_body;")),
    "store of a health check": of(
        "stores: each store has a health of its own",
        (NGINX, "proxy_set_header X-Store $store;")),
    "another server of quotes": of(
        "stores: quotes are answered while one of their servers is away",
        (STORES, "option redispatch 1")),
    "path of issues": of(
        "issues_of_stores: the terms that come first are kept everywhere and others are refused",
        (QUEUE, "path,map(/etc/muni/shards.map,desk)", "str(desk)")),
    "path of amendments": of(
        "issues_of_stores: an amendment is kept everywhere and others under its number are refused",
        (QUEUE, "str(/issues),map(/etc/muni/shards.map,desk)", "str(desk)")),
    "amendments everywhere": of(
        "issues_of_stores: an amendment is kept everywhere and others under its number are refused",
        (ISSUES, 'CHANGES = ("/issues", "/amendments")', 'CHANGES = ("/issues",)')),
    "issues everywhere": of(
        "issues_of_stores: the terms that come first are kept everywhere and others are refused",
        (ISSUES, "in enumerate(rows):", "in ():")),
    "store that decides": of(
        "issues_of_stores: without the first store no other one gets an issue",
        (ISSUES, "self.first, *self.others = names", "*self.others, self.first = names")),
    "store that does not keep an issue": of(
        "issues_of_stores: an issue that a store did not get is finished when it is back",
        (ISSUES, "(stores.doubts.hold_all, stores.watch)", "(stores.doubts.hold_all,)")),
    "doubts of before a stop": of(
        "issues_of_stores: what the first store accepted is finished though the program is killed",
        (ISSUES, "(self.folder / cusip).touch()", "pass")),
    "quotes while a store lacks terms": of(
        "issues_of_stores: quotes go by the terms of the first store while another lacks them",
        (QUEUE, " or { path /quotes /checks } !names_desk is_doubted")),
    "trades while a store lacks terms": of(
        "issues_of_stores: a store that lacks terms figures nothing by those of before",
        (QUEUE, DOUBTED)),
    "trades before the queue is told": of(
        "issues_of_stores: a store that lacks terms figures nothing by those of before",
        (QUEUE, " !{ var(txn.store) -m str desk } !is_told", " { always_false }")),
    "terms that the health compares": of(
        "issues_of_stores: the health compares terms",
        (ISSUES, "self.compare(time.monotonic() + COMPARES)", "pass")),
    "certificate of the machine of nginx": of(
        "hop: who shows no certificate or another is not let in",
        ("hop-in.cfg", "ssl verify required ca-file /etc/muni/door.pem", "ssl verify none")),
    "address of the machine of nginx": of(
        "hop: another address is not let in",
        ("hop-in.cfg", "tcp-request connection reject unless { src 192.0.2.10 }")),
    "certificate of the other machine": of(
        "hop: a machine with another certificate is told nothing",
        ("hop-out.cfg", "ssl verify required", "ssl verify none")),
    "a desk that stands still": of(
        "backups: copies have what was acknowledged and the desk goes on",
        ("backup", 'kill -STOP "${holders[@]}"', "true")),
    "the file beside the store": of(
        "backups: copies have what was acknowledged and the desk goes on",
        ("backup", "endings=('' -wal)", "endings=('')")),
    "a desk that goes on": of(
        "backups: copies have what was acknowledged and the desk goes on",
        ("backup", 'kill -CONT "${holders[@]}" 2>/dev/null\n    kill', "kill")),
}


def edited(edits: Iterable[Edit], folder: pathlib.Path) -> pathlib.Path:
    """A copy of deploy/ with the edits, in a folder that is not there yet."""
    shutil.copytree(ROOT / "deploy", folder)
    for edit in edits:
        file = folder / edit.file
        text = file.read_text()
        if edit.old not in text:
            raise ValueError(f"deploy/{edit.file} has no text {edit.old!r}")
        file.write_text(text.replace(edit.old, edit.new))
    return folder
