#!/usr/bin/env python3
"""run_booted.py ROOT OLD: the Debian package in a booted systemd, by hand, as root.

ROOT is a folder that mmdebstrap made (docs/WORKING.md has the command), which is copied; OLD a
package of an earlier version. It is installed and set up; then the package of this repository
is installed over the running office, removed and purged, and installed again.
"""
import os
import pathlib
import re
import shutil
import subprocess
import sys
import tempfile
import time

from cases import Cases
from run_package import TOP, ran, version_of_package

SECONDS = 60
FRONT = "/etc/examoffice/front"
ASK = "curl -s -m 20 -u {}:{} http://127.0.0.1:{}/publication/penalty | tail -1"
PATH = "export PATH=/usr/sbin:/usr/bin LC_ALL=C"
UNITS = "examoffice@term", "examoffice-front", "examoffice-backup@term.timer"
BOOT = ("mount -t tmpfs tmpfs /run && mkdir -p /run/systemd/nspawn && exec systemd-nspawn --quiet"
        " --boot --register=no --keep-unit --private-network --directory={}")


class Machine:
    """A container of systemd-nspawn."""

    def __init__(self, root):
        self.process = subprocess.Popen(
            ["unshare", "--mount", "--propagation", "private", "sh", "-c", BOOT.format(root)],
            stdin=subprocess.DEVNULL, stdout=subprocess.DEVNULL, stderr=subprocess.DEVNULL)
        end = time.monotonic() + SECONDS
        while "running" not in self.types("systemctl is-system-running || true"):
            if time.monotonic() > end:
                raise TimeoutError(self.types("systemctl --failed"))
            time.sleep(0.5)

    def leader(self):
        """The process that is the first one in the container."""
        children = pathlib.Path(f"/proc/{self.process.pid}/task/{self.process.pid}/children")
        return children.read_text().split()[:1]

    def types(self, commands):
        """What a shell in it prints."""
        leader = self.leader()
        if not leader:
            return ""
        return ran("nsenter", "--target", leader[0], "--mount", "--uts", "--ipc", "--net", "--pid",
                   "--root", "--wd", "sh", "-c", f"{PATH}\n{commands}",
                   timeout=SECONDS * 2)[1].strip()

    def stop(self):
        self.types("systemctl poweroff --force")
        try:
            self.process.wait(SECONDS)
        except subprocess.TimeoutExpired:
            self.process.kill()


def pids(machine):
    return machine.types(f"systemctl show --property=MainPID --value {' '.join(UNITS[:2])}").split()


def wait(machine, commands, expected):
    """What the commands print, at the latest after some seconds."""
    end = time.monotonic() + 20
    while (came := machine.types(commands)) != expected and time.monotonic() < end:
        time.sleep(0.5)
    return came


def set_up_old(judged, machine):
    """Today's package, with an address, a password and a rate of its own."""
    machine.types(f"""dpkg -i /old.deb; mkdir -p /var/lib/examoffice
        examoffice load --db /var/lib/examoffice/term.db /small.exam
        echo PORT=8080 > /etc/examoffice/term.env; cd {FRONT}
        sed -i 's/127.0.0.1:8000;/127.0.0.1:8123;/; s/rate=300r/rate=301r/' nginx.conf
        sed -i 's/rotate 24/rotate 25/' /etc/logrotate.d/examoffice
        printf 'registry:%s\\n' "$(openssl passwd -apr1 own-word)" > {FRONT}/users
        chgrp www-data {FRONT}/users
        systemctl enable --now {' '.join(UNITS)}
        sleep 2; draft=http://127.0.0.1:8080/drafts/1
        curl -s -H 'X-Caller: office' -X PUT --data-binary @/small.sol $draft
        curl -s -H 'X-Caller: office' -X POST $draft/publish""")
    judged.judge("the old package serves", "total 37",
                 wait(machine, ASK.format("registry", "own-word", 8123), "total 37"))


def upgrade(judged, machine):
    before = pids(machine)
    said = machine.types("dpkg -i --force-confold /new.deb")
    judged.judge("no question is asked", False, "Configuration file" in said)
    judged.judge("it serves with its own address and password", "total 37",
                 wait(machine, ASK.format("registry", "own-word", 8123), "total 37"))
    after = pids(machine)
    judged.judge("both are the new ones", True,
                 all(old != new for old, new in zip(before, after, strict=True)))
    judged.judge("the program is that of the package", "/usr/bin/examoffice",
                 machine.types(f"readlink /proc/{after[0]}/exe"))
    judged.judge("what was changed", "1\n1", machine.types(
        f"grep -c 301r {FRONT}/local.conf; ls {FRONT}/nginx.conf.dpkg-old | wc -l"))
    judged.judge("its units", ["active"] * 3, machine.types(
        f"systemctl is-active {' '.join(UNITS)}").split())
    judged.judge("what was changed in the file of logrotate", "/etc/examoffice/logrotate.conf",
                 machine.types("grep -ls 'rotate 25' /etc/logrotate.d/* /etc/examoffice/*"))
    status = "the office of term answers\npublished, total penalty 37"
    judged.judge("status", status, machine.types("examoffice-status 2>&1 | grep -v 'space\\|copy'"))
    said = machine.types("systemctl set-property --runtime examoffice@term MemoryMax=8M"
                         "; examoffice-status"
                         "; systemctl set-property --runtime examoffice@term MemoryMax=2G")
    judged.judge("half of its memory is taken", True,
                 said.startswith("warning: examoffice@term.service has taken "))
    who_reaches_it(judged, machine)
    judged.judge("again, while it runs", "total 37", wait(
        machine, "dpkg -i /new.deb > /dev/null 2>&1; sleep 1; "
        + ASK.format("registry", "own-word", 8123), "total 37"))


def who_reaches_it(judged, machine):
    """Only the queue reaches the office's port, and only the front the queue's sockets."""
    ask = "curl -s -o /dev/null -w %{http_code} -m 5 -H 'X-Caller: office'"
    port = f"{ask} http://127.0.0.1:8080/publication"
    for unit, code in (("examoffice-front", "000"), ("examoffice-agent", "000"),
                       ("examoffice-registry", "000"), ("examoffice-queue", "200")):
        judged.judge(f"the office's port, from {unit}", code, machine.types(
            f"nsenter --net --target $(systemctl show --property=MainPID --value {unit}) {port}"))
    judged.judge("the office's port, from elsewhere", "000", machine.types(port))
    queue = f"{ask} --unix-socket /run/examoffice-queue/term.sock http://office/publication"
    agent = f"{ask} --unix-socket /run/examoffice-agent/agent.sock http://office/-/sign-in"
    registry = (f"{ask} -H 'X-Session: term' --unix-socket /run/examoffice-registry/registry.sock"
                " http://office/-/registry/about")
    let_in = {"examoffice-front": "200\n000\n200", "examoffice-queue": "200\n200\n000",
              "examoffice-agent": "000\n200\n000", "examoffice-registry": "000\n000\n200"}
    accounts = machine.types("cut -d : -f 1 /etc/passwd").split()
    judged.judge("accounts", ({"www-data", "nobody", *let_in}, True),
                 ({"www-data", "nobody", *let_in} & {*accounts}, len(accounts) > 15))
    for user in accounts:
        if user == "root":
            continue
        codes = let_in.get(user, "000\n000\n000")
        become = f"setpriv --reuid={user} --regid=$(id -g {user}) --init-groups"
        judged.judge(f"the queue, the agent and the registry's service, as {user}", codes,
                     machine.types(f"{become} {queue}; echo; {become} {agent}; echo; "
                                   f"{become} {registry}"))
    for user, file in (("examoffice-front", "front/users"), ("examoffice-front", "front.key"),
                       ("www-data", "front/users"), ("www-data", "front.key"),
                       ("www-data", "front/labels/students.json"),
                       ("examoffice-queue", "front/labels/students.json"),
                       ("examoffice-queue", "front/users"), ("examoffice-queue", "front.key"),
                       ("examoffice-registry", "front/users"), ("examoffice-registry", "front.key"),
                       ("examoffice-agent", "front/labels/students.json")):
        judged.judge(f"{file}, as {user}", "", machine.types(
            f"setpriv --reuid={user} --regid=$(id -g {user}) --init-groups"
            f" cat /etc/examoffice/{file} 2> /dev/null"))


def registry(judged, machine):
    """A batch that goes by way of the registry's service is in the ledger."""
    front, batch = "http://127.0.0.1:8123", "student,exam,action\\n3,0,add\\n"
    ask = "curl -s -m 20 -u registry:own-word"
    machine.types("runuser -u examoffice-registry -- examoffice-session-from-csv"
                  " /usr/share/doc/examoffice/examples/small /var/lib/examoffice-registry/term"
                  f"; rm -rf {FRONT}/labels"
                  f"; ln -s /var/lib/examoffice-registry/term/now {FRONT}/labels")
    judged.judge("the registry's service", '{"ledger":true,"standing":[]}',
                 wait(machine, f"{ask} {front}/-/registry/about", '{"ledger":true,"standing":[]}'))
    judged.judge("a batch", '{"added":1,"batch":5,"dropped":0,"unchanged":0}', machine.types(
        f"printf '{batch}' | {ask} -X PUT --data-binary @- {front}/-/registry/batches/5"))
    # Exam 2 is alone in a room of 2 seats.
    judged.judge("what the program judges for it", '{"breaches":[]}\n{"breaches":[{"exam":2,"other"'
                 ':2,"rule":"Capacity"}]}', machine.types(
                     f"{ask} {front}/-/registry/breaches\nprintf 'student,exam,action\\n1,2,add\\n"
                     f"2,2,add\\n' | {ask} --data-binary @- {front}/-/registry/breaches"))
    judged.judge("it is in the ledger", "5|page|registry", machine.types(
        "sqlite3 /var/lib/examoffice-registry/term/ledger.db"
        " 'SELECT number, source, prepared_by FROM batches'"))
    judged.judge("names, by the front", "Room 2.14", machine.types(
        f"{ask} {front}/labels/labels.json | grep -o 'Room 2.14'"))


def backups(judged, machine):
    machine.types("""cd /etc/examoffice
        printf '#!/bin/sh\\nls -d "$1"/"$2"-*Z > /shipped\\n' > ship
        chmod 755 /etc/examoffice/ship; rm -rf /var/backups/examoffice
        systemctl start examoffice-backup@term; systemctl start examoffice-backup@term""")
    judged.judge("one backup, and who may read it", "1\n600\n700", machine.types(
        "ls /var/backups/examoffice | wc -l; stat -c %a /var/backups/examoffice/term-*/office.db"
        " /var/backups/examoffice"))
    judged.judge("it is sent away", "1", wait(machine, "wc -l < /shipped", "1"))
    judged.judge("it is the office, of four exams", "4", machine.types(
        "cp /var/backups/examoffice/term-*/office.db /copy.db; examoffice export --db /copy.db"
        " | wc -l"))
    judged.judge("its parts", "about.json callers digests history.db ledger.db office.db users",
                 machine.types("cd /var/backups/examoffice/term-*; echo *"))
    judged.judge("what belongs to the machine, and who may read it", "700 root\n1", machine.types(
        "stat -c '%a %U' /var/backups/examoffice-machine; find /var/backups/examoffice-machine"
        " -name front.key | wc -l"))
    for unit, most in (
            ("examoffice@term", 1.5), ("examoffice-backup@term", 1.5), ("examoffice-front", 3.0),
            ("examoffice-queue", 1.5), ("examoffice-agent", 1.5), ("examoffice-registry", 1.5),
            ("examoffice-logs", 1.5)):
        said = machine.types(f"systemd-analyze security --no-pager {unit} | tail -1")
        found = re.search(r": ([\d.]+) ", said)
        judged.judge(f"the sandbox of {unit}", True,
                     float(found[1]) <= most if found else said)


def logs(judged, machine):
    """The log is rotated beyond 50 MB, as often as the package looks, and only by the package."""
    begin = """log=/var/lib/examoffice-front/changes.log
        publish() { curl -s -u registry:own-word -X POST http://127.0.0.1:8123/drafts/1/publish; }
        look() { publish > /dev/null; sleep 0.5; "$@"; cd ${log%/*}; echo $(ls -v changes.log*); }
        """
    judged.judge("what looks at the log, and how often", "active\nhourly", machine.types(
        "systemctl is-active examoffice-logs.timer\nsystemctl cat examoffice-logs.timer"
        " | sed -n s/OnCalendar=//p"))
    judged.judge("a short log", "changes.log",
                 machine.types(begin + "look systemctl start examoffice-logs"))
    judged.judge("a long log", "changes.log\nchanges.log changes.log.1", machine.types(
        begin + "truncate -s 60000000 $log; look logrotate /etc/logrotate.conf\n"
        "look systemctl start examoffice-logs"))
    judged.judge("the log, rotated", "640 root examoffice-registry\n1", machine.types(
        begin + "sleep 1; publish > /dev/null; sleep 0.5; stat -c '%a %U %G' $log\n"
        "grep -c publish $log"))
    judged.judge("again on this day", "changes.log changes.log.1 changes.log.2.gz", machine.types(
        begin + "truncate -s 60000000 $log; look systemctl start examoffice-logs"))


def refusals(judged, machine):
    """What is refused is in a journal of its own, whose size is limited; limits are the operator's;
    bodies under way have a disk of their own."""
    refused = ("curl -s -u registry:own-word -X POST -H 'Origin: https://elsewhere.example'"
               " http://127.0.0.1:8123/drafts/1/publish")
    lines = ("journalctl --namespace=examoffice -o cat"
             " | grep -c '/drafts/1/publish\",\"status\":403'")
    judged.judge("a refusal in its journal, and not in the other one", "1\n0", wait(
        machine, f"{lines} | grep -q 1 || {refused} > /dev/null; {lines}\n"
        "journalctl -o cat | grep -c elsewhere", "1\n0"))
    judged.judge("how large it gets", "SystemMaxUse=200M", machine.types(
        "systemd-analyze cat-config systemd/journald@examoffice.conf | grep SystemMaxUse"))
    front = "nsenter -m -t $(systemctl show --property=MainPID --value examoffice-front)"
    judged.judge("the disks of bodies and replies under way", "tmpfs 256M\ntmpfs 512M",
                 machine.types(f"for it in body proxy; do {front} df --output=fstype,size -h"
                               " /var/lib/examoffice-front/$it | tail -n 1 | tr -s ' '; done"))
    made = "grep requests_of_address /var/lib/examoffice-front/made/limits.conf | grep -o 30.r/s"
    judged.judge("a rate of before, and another one", "301r/s\n302r/s", machine.types(
        f"{made}\necho ADDRESS_A_SECOND=302 > {FRONT}/limits.local\n"
        f"systemctl reload examoffice-front; {made}"))
    words = "make_limits: limits.local: there is no limit REQUEST"
    judged.judge("a limit that there isn't", words, (
        machine.types(f"echo REQUEST=1 > {FRONT}/limits.local\n"
                      "/usr/share/examoffice/front/make_limits 2>&1").strip()))
    machine.types(f"rm {FRONT}/limits.local; systemctl reload examoffice-front")


def removal(judged, machine):
    machine.types("dpkg -r examoffice")
    judged.judge("removed", ["inactive"] * 4, machine.types(
        f"systemctl is-active {' '.join(UNITS)} examoffice-logs.timer").split())
    machine.types("dpkg -P examoffice")
    kept = "/etc/examoffice/ship\n/etc/examoffice/term.env\nterm.db\nlabels.json\nnames\n0"
    judged.judge("purged", kept, machine.types(
        "find /etc/examoffice -type f | grep -v dpkg-old | sort; ls /var/lib/examoffice | grep db$"
        "\nls /var/lib/examoffice-registry/term/now | grep 'names\\|labels'"
        "\nfind /etc/systemd/system -name 'examoffice*' | wc -l"))


def anew(judged, machine):
    said = machine.types(f"dpkg -i /new.deb; systemctl enable --now {' '.join(UNITS[:2])}")
    judged.judge("where the password is", True, "/etc/examoffice/registry-password" in said)
    judged.judge("who may read it", "600 root\n640 examoffice-agent", machine.types(
        f"stat -c '%a %U' /etc/examoffice/registry-password; stat -c '%a %G' {FRONT}/users"))
    # Candidate 3, who is new in exam 0, has exams in periods 0, 1 and 3 now: 7 for two in a row,
    # and 2 for the spread.
    judged.judge("a new installation", "total 46", wait(machine, ASK.format(
        "registry", "$(cat /etc/examoffice/registry-password)", 8000), "total 46"))
    judged.judge("signing in on the page", "303\n200", machine.types(
        "curl -s -o /dev/null -w '%{http_code}\\n' -c /jar http://127.0.0.1:8000/-/sign-in"
        " -d user=registry --data-urlencode password=$(cat /etc/examoffice/registry-password)\n"
        "curl -s -o /dev/null -w %{http_code} -b /jar http://127.0.0.1:8000/publication/penalty"))
    judged.judge("no known password", "401", machine.types(
        "curl -s -o /dev/null -w %{http_code} -u registry:try-registry 127.0.0.1:8000/me"))


def main():
    root, old = (pathlib.Path(word).resolve() for word in sys.argv[1:])
    judged = Cases("booted")
    with tempfile.TemporaryDirectory(dir=root.parent) as folder:
        ran(TOP / "packaging" / "make", folder)
        subprocess.run(["cp", "-a", root, f"{folder}/root"], check=True)
        made = pathlib.Path(folder) / "root"
        shutil.copy(f"{folder}/examoffice_{version_of_package()}_amd64.deb", made / "new.deb")
        shutil.copy(old, made / "old.deb")
        for name in ("small.exam", "small.sol"):
            shutil.copy(TOP / "examples" / name, made)
        os.chmod(folder, 0o755)
        machine = Machine(made)
        try:
            for part in (set_up_old, upgrade, refusals, registry, backups, logs, removal,
                         anew):
                part(judged, machine)
        finally:
            machine.stop()
    return judged.end()


if __name__ == "__main__":
    sys.exit(main())
