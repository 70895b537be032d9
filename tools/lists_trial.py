"""lists/hall_lists.py over a copy of a hall: lists_trial.py HALLBOOT HALL_LISTS. Run by lists_trial.sh, which says what is looked at."""
import json, os, re, subprocess, sys
from served_hall import Hall, address, digest

LISTS = {
    "pools": "pool machines members\ndefault 1 -\nlab 1 ada olga",
    "members": "pool operator\nlab ada\nlab olga",
    "images": "image arch live machines kernel initrd args\njammy uefi64 no 1 http://files.example/k http://files.example/i initrd=i quiet\n"
              "live64 uefi64 yes 0 http://files.example/k http://files.example/i -",
    "lives": "arch image\nuefi64 live64",
    "operators": "operator role enabled machines\nada admin yes 0\nolga user yes 1\npow power no 0",
    "boots": "boot machine purpose stage\n1 1 commission done\n2 1 deploy offered",
}


def main(hallboot, lists):
    faults, checks = [], [0]

    def looks(*words):
        it = subprocess.run([sys.executable, lists, *words], capture_output=True, text=True, timeout=60)
        return it.returncode, it.stdout, it.stderr

    def wants(what, is_so, seen):
        checks[0] += 1
        if not is_so:
            faults.append(f"{what}: {seen}")

    with Hall(hallboot, "lists") as hall:
        hall.serve()
        for operator, role in (("olga", "user"), ("pow", "power")):
            hall.command(command="add_operator", operator=operator, role=role, digest=digest(operator))
        hall.command(command="disable_operator", operator="pow")
        hall.command(command="add_pool", pool="lab")
        for operator in ("olga", "ada"):
            hall.command(command="grant", pool="lab", operator=operator)
        hall.command(command="add_image", image="live64", arch="uefi64", kernel="http://files.example/k", initrd="http://files.example/i", args=[])
        hall.command(command="add_image", image="jammy", arch="uefi64", kernel="http://files.example/k", initrd="http://files.example/i", args=["initrd=i", "quiet"])
        hall.command(command="set_live", image="live64")
        hall.command(command="add_machine", mac=address(1), arch="uefi64", pool="lab")
        hall.command(command="add_machine", mac=address(2), arch="bios", pool="default")
        hall.command(command="commission", machine=1, tests=False)
        script = hall.ask(f"/ipxe/{address(1)}")[1].decode()
        boot, token = re.search(r"hall\.boot=(\d+) hall\.token=(\w+)", script).groups()
        for stage in ("started", "done"):
            hall.ask(f"/report/{boot}/{token}", body=json.dumps({"stage": stage}))
        for body in ({"command": "allocate", "machine": 1}, {"command": "deploy", "machine": 1, "image": "jammy"}):
            hall.command(token="olga", **body)
        hall.ask(f"/ipxe/{address(1)}")
        status, _, said = looks("lists.db", "pools")
        wants("a hall that is served is refused", status == 1 and ("in use" in said or "log beside" in said), said)
        hall.stop()
        hall.run("backup", "--to", "copy.db")
    before = open("copy.db", "rb").read()
    for name, rows in LISTS.items():
        status, out, said = looks("copy.db", name)
        first, *lines = out.splitlines()
        table = "\n".join(" ".join(line.split()) for line in lines)
        wants(name, status == 0 and table == rows and re.fullmatch(r"copy\.db of 20..-..-..T..:..:..Z", first), (out, said))
    status, out, said = looks("copy.db", "receipts", "--machine", "1", "--json")
    rows = [(it["operator"], it["command"], it["about"].get("machine"), it["status"]) for it in json.loads(out)["receipts"]] if status == 0 else said
    wants("receipts of one machine, as JSON", rows == [("ada", "add_machine", None, 200), ("ada", "commission", 1, 200), ("olga", "allocate", 1, 200),
                                                       ("olga", "deploy", 1, 200)], rows)
    status, out, said = looks("copy.db")
    wants("how long each list is", status == 0 and [line.split() for line in out.splitlines()[2:]] ==
          [["pools", "2"], ["members", "2"], ["images", "2"], ["lives", "1"], ["operators", "3"], ["receipts", "14"], ["boots", "2"]], (out, said))
    open("other", "w").write("not a hall\n")
    for path in ("other", "missing.db"):
        status, out, said = looks(path, "pools")
        wants(f"{path} is refused", status == 1 and out == "" and said.startswith("hall-lists: "), (out, said))
    wants("the copy is as it was, and nothing stands beside it", open("copy.db", "rb").read() == before and
          [name for name in os.listdir() if name.startswith("copy.db")] == ["copy.db"], os.listdir())
    for text in faults:
        print("lists_trial:", text)
    print(f"lists_trial: {checks[0]} checks, {len(faults)} failed (each list of a copy, and what is refused)")
    sys.exit(1 if faults else 0)


if __name__ == "__main__":
    main(*sys.argv[1:])
