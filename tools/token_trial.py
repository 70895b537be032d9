# The tokens of the boots that a serving desk issues. Arguments: the program hallboot, and how many machines there are, with three boots each. It makes
# its hall in the folder at hand.
import re, sys
from served_hall import Hall, address

PROGRAM, MACHINES = sys.argv[1], int(sys.argv[2])
BOOTS = 3
SCRIPT = re.compile(r"hall\.boot=(\d+) hall\.token=([0-9a-f]{32}) hall\.desk=")
checks = failed = 0


def check(holds, words):
    global checks, failed
    checks += 1
    if not holds:
        failed += 1
        print(f"BAD: {words}", file=sys.stderr)


def answer(hall, target, body=None):
    status, octets = hall.ask(target, None, body)
    if status != 200:
        raise SystemExit(f"token_trial: {target}: {status} {octets.decode()}")
    return octets.decode()


def tokens_of(hall, number):
    """The tokens of a new machine's boots, each of which starts and is asked for anew."""
    machine = hall.command(command="add_machine", mac=address(number), arch="uefi64", pool="default")["id"]
    hall.command(command="commission", machine=machine, tests=False)
    for _ in range(BOOTS):
        script = answer(hall, f"/ipxe/{address(number)}")
        found = SCRIPT.search(script)
        check(found, f"machine {machine}: a script without a boot and a token of 32 hexadecimal digits: {script!r}")
        if found:
            boot, token = found.groups()
            answer(hall, f"/report/{boot}/{token}", '{"stage":"started"}')
            yield token


def look_at(tokens):
    """No two tokens are alike, nor two halves of them; and each octet takes most of its values, none of them often."""
    for words, parts in (("tokens", tokens), ("halves of tokens", [half for token in tokens for half in (token[:16], token[16:])])):
        check(len(set(parts)) == len(parts), f"of {len(parts)} {words} {len(set(parts))} are different")
    for at in range(0, 32, 2):
        octets = [token[at:at + 2] for token in tokens]
        commonest = max(map(octets.count, set(octets)))
        # of a thousand drawn octets some 251 values are seen, and each some four times
        check(len(octets) < 1000 or (len(set(octets)) > 200 and commonest < 40), f"octet {at // 2} takes {len(set(octets))} values, one of them {commonest} times")


with Hall(PROGRAM, "hall") as hall:
    hall.serve()
    hall.command(command="add_image", image="live64", arch="uefi64", kernel="http://files.example/k", initrd="http://files.example/i", args=[])
    hall.command(command="set_live", image="live64")
    tokens = [token for number in range(1, MACHINES + 1) for token in tokens_of(hall, number)]
    hall.stop()
look_at(tokens)
print(f"token_trial: {checks} checks, {failed} failed ({len(tokens)} boots of a serving desk)")
sys.exit(1 if failed else 0)
