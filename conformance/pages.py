#!/usr/bin/env python3
"""The commands of README.md, docs/USING.md, docs/USING-POOLS.md, docs/CLIENTS.md and docs/OPERATING.md, run as they are written in a fresh clone, each with what
it has to print. A command has to be in its page, and each indented line of a page has to be a command that was run, a line that the run printed, or one that is
named at the end with the reason why not. The commands of a page are pasted into one shell, and only the page itself waits for a port. What wants systemd is in
conformance/systemd.sh; tools/pages.py looks up what pages name. The clone takes the built program of this folder (IPAMD=PROGRAM takes another one); with
--build it is built there, the small program first, by the kit's `rt`. It needs curl, socat, dpkg-dev and python3-pynetbox, and the ports 8080 and 8081. What
asks poold, and the package, is run if that program is built (POOLD=PROGRAM takes another one).

    conformance/run pages [--build] [--quiet]
"""
import glob
import os
import re
import shutil
import signal
import sqlite3
import subprocess
import sys
import tempfile
import time
from dataclasses import dataclass

TOP = os.path.abspath(os.path.join(os.path.dirname(os.path.abspath(__file__)), ".."))
sys.path.insert(0, TOP)
from conformance.pasting import Shell

BASE, POOLS_BASE = "http://127.0.0.1:8080/api/ipam", "http://127.0.0.1:8081/api/ipam"
POOLD = os.environ.get("POOLD", os.path.join(TOP, "crates/poold/out/poold"))
# what the commands of the pages need, with Debian's packages
NEEDS = {"curl": "curl", "socat": "socat", "dpkg-shlibdeps": "dpkg-dev", "strip": "binutils"}
# the text that stands behind a command in a page and is none of it
REMARK = re.compile(r" {2,}# .*$")
PREFIXES = "prefix,vrf,status\n10.0.0.0/16,,container\n10.0.0.0/24,,active\n10.0.1.0/24,,active\n"


@dataclass
class Step:
    page: str
    command: str
    wanted: str
    status: int = 0
    stays: bool = False


def readme(command, wanted, **more):
    return Step("README.md", command, wanted, **more)


def using(command, wanted, **more):
    return Step("docs/USING.md", command, wanted, **more)


def operating(command, wanted, **more):
    return Step("docs/OPERATING.md", command, wanted, **more)


def clients(command, wanted, **more):
    return Step("docs/CLIENTS.md", command, wanted, **more)


def pools(command, wanted, **more):
    return Step("docs/USING-POOLS.md", command, wanted, **more)


def file(name, text):
    return lambda folder: open(os.path.join(folder, name), "w", newline="").write(text)


def forget_office(folder):
    """Removes the register of the last step and its log."""
    for path in glob.glob(os.path.join(folder, "office.db*")):
        os.remove(path)


def office(rows):
    """A new register with these rows of some kinds."""
    def make(folder):
        forget_office(folder)
        for kind, text in rows.items():
            subprocess.run(["./ipamd", "import", kind, "--db", "office.db"], cwd=folder, input=text.encode(), check=True, stdout=subprocess.DEVNULL)
    return make


def first_office(folder):
    """A register that an older program made, of version 1."""
    forget_office(folder)
    with open(os.path.join(TOP, "model/tables_first.sql"), encoding="utf-8") as text, sqlite3.connect(os.path.join(folder, "office.db")) as made:
        made.executescript(text.read())
    made.close()


def serving(folder):
    """A register in memory that all following commands ask, until the next one takes its place."""
    return ["./ipamd", "serve", "--bind", "127.0.0.1:8080", "--workers", "8"]


POST = r"""printf 'POST /api/ipam/prefixes/ HTTP/1.1\r\nHost: x\r\nContent-Length: 24\r\n\r\n{"prefix":"10.0.0.0/24"}' | ./ipamd session"""
MIRROR = "\n".join((
    r"""{ printf 'POST /api/ipam/prefixes/ HTTP/1.1\r\nHost: x\r\nContent-Length: 24\r\n\r\n{"prefix":"10.0.0.0/24"}'; sleep 2; } |""",
    "  ./ipamd mirror --bind 127.0.0.1:8080 --readers 2 --connections 1 > operator.out &",
    "sleep 1",
    "curl -s --retry 9 --retry-connrefused 'http://127.0.0.1:8080/api/ipam/prefixes/?least=1'",
    "curl -s http://127.0.0.1:8080/api/ipam/prefixes/1/"))
SOCAT = "socat TCP-LISTEN:8080,bind=127.0.0.1,reuseaddr,fork EXEC:'./ipamd session' &"
TWO = """curl -s --retry 9 --retry-connrefused -d '{"name":"red"}' http://127.0.0.1:8080/api/ipam/vrfs/ --next -s http://127.0.0.1:8080/api/ipam/vrfs/1/"""
RED = r'\{"description":"","enforce_unique":true,"id":1,"name":"red","rd":null\}'
KINDS = "vrfs rirs roles aggregates prefixes ip-ranges ip-addresses"

# steps in their order; a function makes a file, or gives the words of a register that serves from there on; None ends what runs
STEPS = [
    readme(r"printf '10.0.0.0/24\n10.0.4.0/22\n' | ./ipamd free 10.0.0.0/16", r"\A10\.0\.1\.0/24\n(.*\n){5}10\.0\.128\.0/17\n\Z"),
    readme("./build", r"\A\Z"),
    readme("./ipamd serve --bind 127.0.0.1:8080 --workers 4 --db office.db &", "", stays=True),
    readme("""curl -s --retry 9 --retry-connrefused -d '{"prefix":"10.0.0.0/24"}' http://127.0.0.1:8080/api/ipam/prefixes/""", r'"id":1,.*"prefix":"10\.0\.0\.0/24"'),
    readme("""curl -s -d '{}' http://127.0.0.1:8080/api/ipam/prefixes/1/available-ips/ | grep -o '"address":"[^"]*"'""", r'\A"address":"10\.0\.0\.1/24"\n\Z'),
    None,
    forget_office,
    using("./ipamd version", r"\Aipamd \d+\.\d+\.\d+\n\Z"),
    using("./ipamd help serve", r"\Ausage: ipamd serve --bind HOST:PORT --workers N\b.*--db FILE"),
    file("assigned.txt", "2001:db8:8000::/33\n"),
    using("./ipamd free 2001:db8::/32 < assigned.txt", r"\A2001:db8::/33\n\Z"),
    file("prefixes.csv", "id,prefix,vrf\n1,10.0.0.0/9,\n2,10.128.0.0/10,\n"),
    using("""python3 -c 'import csv, sys; [print(row["prefix"]) for row in csv.DictReader(sys.stdin)]' < prefixes.csv | ./ipamd free 10.0.0.0/8""", r"\A10\.192\.0\.0/10\n\Z"),
    using(POST, r'\AHTTP/1.1 201 Created\r\n.*"prefix":"10\.0\.0\.0/24"'),
    using(MIRROR, r'\A\{"count":1,.*"prefix":"10\.0\.0\.0/24".*\}\{"children":0,.*"prefix":"10\.0\.0\.0/24"'),
    using(SOCAT, "", stays=True),
    using(TWO, rf"\A{RED}{RED}\Z"),
    using("U=" + BASE, r"\A\Z"),
    None,
    serving,
    using("""curl -s -d '{"name":"red","rd":"65000:1"}' $U/vrfs/""", r'"id":1,"name":"red","rd":"65000:1"'),
    using("""curl -s -d '{"prefix":"10.0.0.0/24","vrf":1,"status":"reserved"}' $U/prefixes/""", r'"id":1,.*"prefix":"10\.0\.0\.0/24",.*"value":"reserved"\},"vrf":1\}\Z'),
    using("""curl -s -d '{"name":"ARIN","slug":"arin"}' $U/rirs/""", r'"id":1,"is_private":false,"name":"ARIN","slug":"arin"'),
    using("""curl -s -d '{"prefix":"10.0.0.0/8","rir":1}' $U/aggregates/""", r'"family":4,"id":1,"prefix":"10\.0\.0\.0/8","rir":1'),
    using("""curl -s -d '{"name":"LAN","slug":"lan","weight":500}' $U/roles/""", r'"id":1,"name":"LAN","slug":"lan","weight":500'),
    using("""curl -s -d '{"start_address":"10.0.0.10/24","end_address":"10.0.0.19/24","role":1}' $U/ip-ranges/""", r'"end_address":"10\.0\.0\.19/24",.*"id":1,.*"role":1,.*"start_address":"10\.0\.0\.10/24"'),
    using("""curl -s -d '{"address":"10.0.0.1/24","role":"vip","dns_name":"gw.example"}' $U/ip-addresses/""", r'"address":"10\.0\.0\.1/24",.*"dns_name":"gw\.example",.*"id":1,'),
    using("curl -s $U/vrfs/", r'\A\{"count":1,"next":null,"previous":null,"results":\[\{.*"name":"red"'),
    using('curl -s "$U/vrfs/?name=red"', r'\A\{"count":1,'),
    using("curl -s $U/prefixes/1/", r'"prefix":"10\.0\.0\.0/24"'),
    using('curl -s "$U/ip-ranges/?contains=10.0.0.12&status=active"', r'\A\{"count":1,'),
    using('curl -s "$U/prefixes/?within=10.0.0.0/8&vrf_id=null&limit=100"', r'\A\{"count":0,'),
    using('curl -s "$U/ip-addresses/?parent=10.0.0.0/24&role=vip"', r'\A\{"count":1,'),
    using('curl -s "$U/prefixes/?limit=2" --next -s "$U/prefixes/?limit=2&offset=2"', r'\A\{"count":1,"next":null,"previous":null,.*\{"count":1,"next":null,"previous":"/api/ipam/prefixes/\?limit=2&offset=0","results":\[\]\}\Z'),
    using("""curl -s -X PATCH -d '{"status":"deprecated","vrf":null}' $U/prefixes/1/""", r'"value":"deprecated"\},"vrf":null\}\Z'),
    using("""curl -s -X PATCH -d '{"end_address":"10.0.0.29/24"}' $U/ip-ranges/1/""", r'"end_address":"10\.0\.0\.29/24"'),
    using("""curl -s -X PATCH -d '{"dns_name":"gw2.example"}' $U/ip-addresses/1/""", r'"dns_name":"gw2\.example"'),
    using('curl -s "$U/prefixes/1/available-prefixes/?limit=10"', r'\A\[\{"family":4,"prefix":"10\.0\.0\.0/24","vrf":null\}\]\Z'),
    using("curl -s $U/prefixes/1/available-ips/", r'\A\[\{"address":"10\.0\.0\.2/24","family":4,"vrf":null\},'),
    using("curl -s $U/ip-ranges/1/available-ips/", r'\A\[\{"address":"10\.0\.0\.10/24",'),
    using("""curl -s -d '{"prefix_length":26}' $U/prefixes/1/available-prefixes/""", r'"prefix":"10\.0\.0\.0/26"'),
    using("curl -s -d '{}' $U/prefixes/1/available-ips/", r'"address":"10\.0\.0\.2/24"'),
    using("""curl -s -d '{"dns_name":"order-4711.example"}' $U/prefixes/1/available-ips/""", r'"address":"10\.0\.0\.3/24",.*"dns_name":"order-4711\.example"'),
    using('curl -s "$U/ip-addresses/?dns_name=order-4711.example"', r'\A\{"count":1,.*"address":"10\.0\.0\.3/24"'),
    using("""curl -s -d '[{"dns_name":"a.example"},{"status":"reserved"}]' $U/ip-ranges/1/available-ips/""", r'\A\[\{"address":"10\.0\.0\.10/24",.*"dns_name":"a\.example".*"address":"10\.0\.0\.11/24",.*"value":"reserved"'),
    using("""curl -s -d '[{"prefix_length":25},{"prefix_length":25}]' $U/prefixes/1/available-prefixes/""", r'\A\{"code":"no_space","detail":"[^"]*\b1\b[^"]*"\}\Z'),
    using("curl -s $U/prefixes/1/utilization/", r'\A\{"utilization":\d+\}\Z'),
    using("curl -s $U/ip-ranges/1/utilization/", r'\A\{"utilization":10\}\Z'),
    using("""curl -s -X PATCH -d '{"mark_populated":true}' $U/ip-ranges/1/""", r'"mark_populated":true'),
    using("curl -s $U/aggregates/1/utilization/", r'\A\{"utilization":0\}\Z'),
    using("curl -s -X DELETE $U/prefixes/1/", r"\A\Z"),
    using("curl -s -X DELETE $U/rirs/1/", r'\A\{"code":"in_use","detail":"named by aggregates 1"\}\Z'),
    None,
    using(POST + " --db office.db", r"\AHTTP/1\.1 201 Created\r\n"),
    using(r"printf 'GET /api/ipam/prefixes/1/ HTTP/1.1\r\nHost: x\r\n\r\n' | ./ipamd session --db office.db", r'\AHTTP/1\.1 200 OK\r\n.*"prefix":"10\.0\.0\.0/24"'),
    using("./ipamd session --db office.db </dev/null && cp office.db copy.db", r"\A\Z"),
    using("./ipamd serve --bind 127.0.0.1:8080 --workers 4 --db office.db &", "", stays=True),
    using("""curl -s --retry 9 --retry-connrefused -d '{"name":"red"}' http://127.0.0.1:8080/api/ipam/vrfs/""", rf"\A{RED}\Z"),
    using("curl -s http://127.0.0.1:8080/api/ipam/vrfs/1/", rf"\A{RED}\Z"),
    None,
    lambda folder: os.remove(os.path.join(folder, "office.db")),
    file("prefixes.csv", PREFIXES),
    using("./ipamd import prefixes --db office.db < prefixes.csv", r"\Acreated 3 present 0\n\Z"),
    using("./ipamd export prefixes --db office.db > prefixes.csv", r"\A\Z"),
    using(f"for k in {KINDS}; do ./ipamd export $k --db office.db > $k.csv; done", r"\A\Z"),
    using(f"for k in {KINDS}; do ./ipamd import $k --db new.db < $k.csv; done", r"\A(created 0 present 0\n){4}created 3 present 0\n(created 0 present 0\n){2}\Z"),
    using("./ipamd report tree --db office.db", r"\Aglobal\n  10\.0\.0\.0/16 container\n    10\.0\.0\.0/24 active\n    10\.0\.1\.0/24 active\n\Z"),
    using("./ipamd report utilization --db office.db", r"\A10\.0\.0\.0/16 +global +container +0\n10\.0\.0\.0/24 +global +active +0\n"),
    using("./ipamd report free --db office.db --prefix 1", r"\A10\.0\.2\.0/23 +512\n"),
    office({"prefixes": "prefix\n10.0.0.0/24\n10.0.1.0/24\n10.0.1.128/25\n10.0.2.0/24\n"}),
    using("./ipamd prefix-list --table global --family 4 --style ios --name OFFICE --db office.db",
          r"\Aip prefix-list OFFICE seq 5 permit 10\.0\.0\.0/23\nip prefix-list OFFICE seq 10 permit 10\.0\.2\.0/24\n\Z"),
    file("list.txt", "10.0.0.0/24\n10.0.2.0/23\n"),
    using("./ipamd prefix-check --table global --family 4 --style plain --name OFFICE --db office.db < list.txt", r"\Amissing 10\.0\.1\.0/24\nbeyond 10\.0\.3\.0/24\n\Z"),
    using("tr -d '\\r' < examples/prefix-lists/ios.txt | grep '^ip prefix-list OFFICE ' | ./ipamd prefix-check --table global --family 4 --style ios --name OFFICE --db office.db", r"\A\Z"),
    office({"prefixes": "prefix\n192.0.2.0/24\n", "ip-addresses": "address,dns_name\n192.0.2.1/24,www.example.com\n192.0.2.10/24,\n192.0.2.11/24,*.example.com\n"}),
    using("./ipamd reverse --prefix 1 --db office.db", r"\A1\.2\.0\.192\.in-addr\.arpa\. IN PTR www\.example\.com\.\n\Z"),
    using("./ipamd reverse --prefix 1 --db office.db > office.names", r"\A\Z"),
    using("examples/zone_files.py list 192.0.2.0/24", r"\A2\.0\.192\.in-addr\.arpa\n\Z"),
    using("examples/zone_files.py reverse --zone 2.0.192.in-addr.arpa --primary ns.example.org --contact hostmaster@example.org --ns ns.example.org "
          "--into 2.0.192.zone < office.names", r"\A2\.0\.192\.zone: serial 1, 1 records\n\Z"),
    using("./ipamd export ip-addresses --db office.db > office.csv", r"\A\Z"),
    using("examples/zone_files.py forward --zone example.com --table global --primary ns.example.org --contact hostmaster@example.org --ns ns.example.org "
          "< office.csv", r"\nwww\.example\.com\. IN A 192\.0\.2\.1\n"),
    using("examples/zone_files.py read --zone 2.0.192.in-addr.arpa < 2.0.192.zone", r"\Aaddress,dns_name\n192\.0\.2\.1,www\.example\.com\n\Z"),
    using("./ipamd reverse-read < office.names", r"\Aaddress,dns_name\n192\.0\.2\.1,www\.example\.com\n\Z"),
    first_office,
    using("./ipamd migrate --db office.db --populated yes", r"\Amigrated 3\n\Z"),
    using("./ipamd load 1000 --workers 4", r"\Aclaimed 1000\nfirst 10\.0\.0\.1\nlast 10\.0\.3\.232\npercent 24\nentries 1001\n\Z"),
    clients("./ipamd serve --bind 127.0.0.1:8080 --workers 4 &", "", stays=True),
    clients("curl -s --retry 9 --retry-connrefused -o /dev/null http://127.0.0.1:8080/", r"\A\Z"),
    clients("examples/client_curl.sh http://127.0.0.1:8080", r"client_curl: 23 answers, all as they should be\n\Z"),
    None,
    lambda folder: os.remove(os.path.join(folder, "office.db")),
    operating("./install.sh /usr/local", r"\Ainstalled ipamd [\d.]+: "),
    operating(r"printf '10.0.0.0/24\n' | ipamd free 10.0.0.0/22", r"\A10\.0\.1\.0/24\n10\.0\.2\.0/23\n\Z"),
    operating("ipamd serve --bind 127.0.0.1:8080 --workers 16 --db office.db &", "", stays=True),
    operating("curl -s --retry 9 --retry-connrefused -o /dev/null http://127.0.0.1:8080/", r"\A\Z"),
    operating("curl -s http://127.0.0.1:8080/api/ipam/prefixes/", r'\A\{"count":0,"next":null,"previous":null,"results":\[\]\}\Z'),
    None,
    serving,
    operating("python3 examples/move.py netbox examples/netbox --to http://127.0.0.1:8080", r"\n?made 24, present 0, refused 0\n\Z"),
    operating("install -m 755 examples/copy_register.py /usr/local/bin/", r"\A\Z"),
    operating("copy_register.py http://127.0.0.1:8080 register-$(date +%F).db", r"\Avrfs 1, rirs 0, roles 3, aggregates 0, prefixes 13, ip-ranges 0, ip-addresses 7; place 24\n\Z"),
    None,
    serving,
    operating("python3 examples/move.py phpipam examples/phpipam --to http://127.0.0.1:8080", r"made 18, present 0, refused 1\n", status=1),
    None,
    serving,
    operating("python3 examples/move.py spreadsheet examples/spreadsheet.csv --to http://127.0.0.1:8080", r"made 23, present 1, refused 1\n", status=1),
    operating(r"""curl -sf --max-time 5 -o /dev/null -X PATCH -d "{\"description\":\"checked $(date +%F)\"}" http://127.0.0.1:8080/api/ipam/roles/1/""", r"\A\Z"),
    None,
]
# the steps that want poold
POOL_STEPS = [
    operating("packaging/build-deb.sh", r"\Abuilt \S*/packaging/out/ipamd_[\d.]+_amd64\.deb\n\Z"),
    pools("./poold serve --bind 127.0.0.1:8081 --workers 4 --db pools.db &", "", stays=True),
    pools("U=" + POOLS_BASE, r"\A\Z"),
    pools("""curl -s --retry 9 --retry-connrefused -d '{"name":"office","start":101,"end":599}' $U/vlan-groups/""", r'\A\{"end":599,"id":1,"name":"office","start":101\}\Z'),
    pools("python3 examples/move.py spreadsheet examples/vlans.csv --pools http://127.0.0.1:8081 --group office",
          r"\A0 vrfs, 0 roles, 0 prefixes, 0 ip-addresses, 1 vlan-groups, 40 vlans\npools: made 40, present 1, refused 0\n\Z"),
    pools('curl -s "$U/vlan-groups/1/available-vlans/?limit=3"', r"\A\[109,110,111\]\Z"),
    pools("""curl -s -d '{"name":"floor 1 lab"}' $U/vlan-groups/1/available-vlans/""", r'\A\{"group":1,"id":41,"name":"floor 1 lab","vid":109\}\Z'),
    pools("""curl -s -d '{"name":"private","start":64512,"end":65534}' $U/asn-ranges/""", r'\A\{"end":65534,"id":2,"name":"private","start":64512\}\Z'),
    pools("""curl -s -d '{"name":"lab","start":1,"end":4094}' $U/vlan-groups/""", r'\A\{"end":4094,"id":3,"name":"lab","start":1\}\Z'),
    pools("curl -s $U/vlan-groups/", r'\A\[\{"end":599,"id":1,"name":"office","start":101\},\{"end":4094,"id":3,"name":"lab","start":1\}\]\Z'),
    pools("curl -s $U/asn-ranges/", r'\A\[\{"end":65534,"id":2,"name":"private","start":64512\}\]\Z'),
    pools("curl -s -X DELETE $U/vlan-groups/3/", r"\A\Z"),
    pools("curl -s $U/asn-ranges/2/", r'\A\{"end":65534,"id":2,"name":"private","start":64512\}\Z'),
    pools("""curl -s -X PATCH -d '{"end":65500}' $U/asn-ranges/2/""", r'\A\{"end":65500,"id":2,"name":"private","start":64512\}\Z'),
    pools('curl -s "$U/asn-ranges/2/available-asns/?limit=3"', r"\A\[64512,64513,64514\]\Z"),
    pools("curl -s -d '{}' $U/asn-ranges/2/available-asns/", r'\A\{"asn":64512,"id":42,"range":2\}\Z'),
    pools("curl -s -d '[{},{}]' $U/asn-ranges/2/available-asns/", r'\A\[\{"asn":64513,"id":43,"range":2\},\{"asn":64514,"id":44,"range":2\}\]\Z'),
    pools("curl -s $U/asn-ranges/2/asns/", r'\A\[\{"asn":64512,"id":42,"range":2\},.*,\{"asn":64514,"id":44,"range":2\}\]\Z'),
    pools("curl -s -X DELETE $U/asns/42/", r"\A\Z"),
    pools("""curl -s -d '{"name":"voice"}' $U/vlan-groups/1/available-vlans/""", r'\A\{"group":1,"id":45,"name":"voice","vid":110\}\Z'),
    pools("curl -s $U/vlan-groups/1/vlans/", r'\A\[\{"group":1,"id":1,"name":"floor 1 staff","vid":101\},.*,\{"group":1,"id":45,"name":"voice","vid":110\}\]\Z'),
    pools("""curl -s -X PATCH -d '{"name":"phones"}' $U/vlans/45/""", r'\A\{"group":1,"id":45,"name":"phones","vid":110\}\Z'),
    pools("curl -s $U/vlans/45/", r'\A\{"group":1,"id":45,"name":"phones","vid":110\}\Z'),
    pools('curl -s "$U/vlans/?name=phones"', r'\A\{"count":1,"next":null,"previous":null,"results":\[\{"group":1,"id":45,"name":"phones","vid":110\}\]\}\Z'),
    pools("curl -s -X DELETE $U/vlans/45/", r"\A\Z"),
    pools("""curl -s -d '{"asn":64520,"name":"edge"}' $U/asn-ranges/2/asns/""", r'\A\{"asn":64520,"id":46,"name":"edge","range":2\}\Z'),
    pools("""curl -s -d '[{"vid":110,"name":"voice"},{"vid":120,"name":"data"}]' $U/vlan-groups/1/vlans/""",
          r'\A\[\{"group":1,"id":47,"name":"voice","vid":110\},\{"group":1,"id":48,"name":"data","vid":120\}\]\Z'),
    lambda folder: os.symlink(f"{folder}/crates/poold/out/poold", f"{folder}/here/bin/poold"),
    operating("copy_register.py http://127.0.0.1:8081 pools-$(date +%F).db --pools", r"\Aranges 2, members 46; place \d+\n\Z"),
    operating("poold session --db pools-$(date +%F).db < /dev/null; echo $?", r"\A0\n\Z"),
    None,
]
STEPS += POOL_STEPS if os.access(POOLD, os.X_OK) else []
# lines of a page that are neither run here nor printed by a run, by how they begin, and why
ELSE = [
    ("README.md", "rt ci", "the gate"),
    ("README.md", "./build", "the program is built already, or by --build"),
    ("docs/USING.md", "row ", "the form of a line"),
    ("docs/CLIENTS.md", "REQUESTS_CA_BUNDLE", "conformance/run netbox runs it, on another port"),
    ("docs/CLIENTS.md", "apt-get install", "the machine's packages"),
    ("docs/CLIENTS.md", "ansible-playbook", "conformance/run netbox runs it, on another port"),
    ("docs/USING-POOLS.md", "python3 examples/move.py netbox", "conformance/run clients runs it, over empty pools"),
    ("docs/OPERATING.md", "curl -s -H", "no NetBox is at hand"),
    ("docs/OPERATING.md", "apt install", "conformance/systemd.sh runs it"),
    ("docs/OPERATING.md", "./build", "the program is built already, or by --build"),
    ("docs/OPERATING.md", "./ipamd session --db register-", "a copy of the day before"),
    ("docs/OPERATING.md", "printf 'clara yes", "a file of nginx; conformance/run page has such a one"),
    ("docs/OPERATING.md", "log_format", "a line of nginx's configuration"),
    ("docs/OPERATING.md", "    '\"body\"", "a line of nginx's configuration"),
    ("docs/OPERATING.md", "access_log", "a line of nginx's configuration"),
    ("docs/OPERATING.md", "client_body_buffer_size", "a line of nginx's configuration"),
    ("docs/OPERATING.md", "[Service]", "lines of a unit"),
    ("docs/OPERATING.md", "ExecStartPost=", "lines of a unit"),
    ("docs/OPERATING.md", "jq ", "a question to a log that nginx wrote"),
    ("docs/OPERATING.md", "PATH=", "a line of cron, which conformance/run copies runs"),
    ("docs/OPERATING.md", "30 2 ", "a line of cron, which conformance/run copies runs"),
    ("docs/OPERATING.md", "35 2 ", "a line of cron, which conformance/run copies runs"),
    ("docs/OPERATING.md", "45 2 ", "a line of cron, which conformance/run copies runs"),
    ("docs/OPERATING.md", "5 * ", "a line of cron, which conformance/run copies runs"),
    ("docs/OPERATING.md", "10 * ", "a line of cron, which conformance/run copies runs"),
    ("docs/OPERATING.md", "15 * ", "a line of cron, which conformance/run copies runs"),
    ("docs/OPERATING.md", "ipamd-from", "conformance/run copies runs it"),
    ("docs/OPERATING.md", "HTTP/1.1 507", "conformance/run full_log sees it"),
    ("docs/OPERATING.md", '{"code":"limit"', "conformance/run full_log sees it"),
] + ([] if os.access(POOLD, os.X_OK) else [
    ("docs/USING-POOLS.md", "", "poold is not built"),
    ("docs/OPERATING.md", "packaging/build-deb.sh", "poold is not built"),
    ("docs/OPERATING.md", "copy_register.py http://127.0.0.1:8081", "poold is not built"),
    ("docs/OPERATING.md", "poold session", "poold is not built"),
])


def lines_of(page):
    """The indented lines of a page that stand behind an empty line or one another, without the remarks behind them."""
    found, open_to = [], True
    with open(os.path.join(TOP, page), encoding="utf-8") as text:
        for line in text:
            open_to = not line.strip() or open_to and line.startswith("    ")
            if open_to and line.strip():
                found.append(REMARK.sub("", line.rstrip("\n"))[4:])
    return found


def listens():
    with open("/proc/net/tcp") as table:
        return any(re.search(" 0100007F:1F9[01] 00000000:0000 0A", line) for line in table)


class Folder:
    """A fresh clone, and what runs in it."""

    def __init__(self, path, build):
        self.path, self.running, self.shells = path, [], {}
        subprocess.run(["git", "clone", "-q", TOP, path], check=True)
        self.env = {**os.environ, "U": BASE, "PATH": f"{path}/here/bin:" + os.environ["PATH"], "PYTHONDONTWRITEBYTECODE": "1"}
        self.program = f"{path}/crates/ipamd/out/ipamd"
        if not build:
            os.makedirs(os.path.dirname(self.program))
            shutil.copy(os.environ.get("IPAMD", os.path.join(TOP, "crates/ipamd/out/ipamd")), self.program)
            os.chmod(self.program, 0o755)
        if os.access(POOLD, os.X_OK):
            os.makedirs(f"{path}/crates/poold/out")
            shutil.copy(POOLD, f"{path}/crates/poold/out/poold")
            os.chmod(f"{path}/crates/poold/out/poold", 0o755)

    def start(self, words, waits=True):
        self.running.append(subprocess.Popen(words, cwd=self.path, env=self.env, stdin=subprocess.DEVNULL, stdout=subprocess.DEVNULL, start_new_session=True))
        if not waits:
            return
        for _ in range(100):
            if listens():
                return
            time.sleep(0.1)
        sys.exit(f"pages: the port 8080 or 8081 does not listen: {words}")

    def end(self):
        for child in self.running:
            os.killpg(child.pid, signal.SIGKILL)
            child.wait()
        for shell in self.shells.values():
            shell.end()
        self.running, self.shells = [], {}
        while listens():
            time.sleep(0.1)

    def run(self, step):
        """What it prints."""
        if step.stays:
            # the page's own commands wait for the port
            self.start(["bash", "-c", "exec " + step.command.removesuffix(" &")], waits=False)
            return ""
        # nothing is written outside the clone
        if step.page not in self.shells:
            env = {**self.env, "U": POOLS_BASE} if step.page == "docs/USING-POOLS.md" else self.env
            self.shells[step.page] = Shell(self.path, env)
        printed, status = self.shells[step.page].paste(step.command.replace("/usr/local", f"{self.path}/here"))
        told = printed.replace(f"{self.path}/here", "/usr/local")
        told = re.sub(r"^ipamd: (proving and building .*|built|the whole program is not built.*|\d+ of \d+ crates proved.*)\n", "", told, flags=re.M)
        if status != step.status or not re.search(step.wanted, told, re.S):
            sys.exit(f"pages: {step.page}: {step.command}\nstatus {status}, printed\n{told}\nwanted {step.wanted}")
        return told


def left_over(pages, steps, told):
    """The lines of the pages that no step has and no step printed, each with its page; and how many stand in conformance/systemd_steps.sh."""
    with open(os.path.join(TOP, "conformance/systemd_steps.sh")) as text:
        systemd = text.read().replace("\\\\n", "\\n").replace('\\"', '"').replace("\\$", "$")
    left, there = [], 0
    for page, lines in pages.items():
        known = {line for step in steps if step.page == page for line in step.command.split("\n")}
        printed = "\n".join(told[page]).replace("\r", "")
        for line in lines:
            if line in known or line.strip() in printed:
                continue
            if page == "docs/OPERATING.md" and (line in systemd or line.replace("2026-11-28", "$today") in systemd):
                there += 1
                continue
            reason = next((why for where, begin, why in ELSE if where == page and line.startswith(begin)), None)
            left.append((page, line, reason))
    return left, there


def check_needs():
    for command, package in NEEDS.items():
        if shutil.which(command) is None:
            sys.exit(f"pages: {command} is missing: apt-get install {package}")
    if subprocess.run(["/usr/bin/python3", "-c", "import pynetbox"], stderr=subprocess.DEVNULL).returncode != 0:
        sys.exit("pages: /usr/bin/python3 has no pynetbox: apt-get install python3-pynetbox")


def main():
    check_needs()
    path = tempfile.mkdtemp()
    folder = Folder(os.path.join(path, "ipamd"), "--build" in sys.argv[1:])
    pages = {page: lines_of(page) for page in ("README.md", "docs/USING.md", "docs/USING-POOLS.md", "docs/CLIENTS.md", "docs/OPERATING.md")}
    told, steps = {page: [] for page in pages}, [step for step in STEPS if isinstance(step, Step)]
    try:
        for step in STEPS:
            if step is None:
                folder.end()
            elif not isinstance(step, Step):
                words = step(folder.path)
                if isinstance(words, list):
                    folder.start(words)
            else:
                if any(line not in pages[step.page] for line in step.command.split("\n")):
                    sys.exit(f"pages: not in {step.page}: {step.command}")
                printed = folder.run(step)
                told[step.page].append(printed)
                if step is steps[0] and "--build" in sys.argv[1:]:
                    # the first command built the small program; a server is to listen at once
                    subprocess.run(["./build"], cwd=folder.path, check=True)
                if "--quiet" not in sys.argv[1:]:
                    first = printed.split("\n")[0].strip()
                    print(f"{step.page}: {step.command.splitlines()[0]}\n    status {step.status}: {first[:160]}", flush=True)
    finally:
        folder.end()
        shutil.rmtree(path, ignore_errors=True)
    left, there = left_over(pages, steps, told)
    for page, line, reason in left:
        print(f"{page}: not run: {line}: {reason or 'NO REASON'}")
    if any(reason is None for _, _, reason in left):
        sys.exit("pages: lines without a reason")
    print(f"pages: {len(steps)} commands as written, each with what it is to print; {there} lines are those of conformance/systemd.sh")


if __name__ == "__main__":
    main()
