"""How many trials passed and failed; each is a command in a clean environment."""
import subprocess
import time

SECONDS = 300
CLEAN = {"PATH": "/usr/bin:/bin:/usr/sbin:/sbin", "LC_ALL": "C.UTF-8", "TERM": "dumb"}


class Count:
    def __init__(self):
        self.passed = self.failed = self.left = 0

    def told(self, name, is_well, text, begun):
        self.passed += is_well
        self.failed += not is_well
        took = time.monotonic() - begun
        print(f"{'ok' if is_well else 'FAILED'}: {name} ({took:.1f} s)", flush=True)
        if not is_well:
            print("    " + text[-2500:].replace("\n", "\n    "), flush=True)
        return is_well

    def run(self, name, words, folder, **wanted):
        """Runs a command. It has to end with the `status` 0, or what is wanted, and has to show
        each of the words `shown`; `given` is its standard input, and its environment has what else
        is named."""
        begun, words = time.monotonic(), [str(it) for it in words]
        status, shown = wanted.pop("status", 0), wanted.pop("shown", [])
        given = {"input": wanted.pop("given", ""), "cwd": folder, "timeout": SECONDS}
        env = {name: str(it) for name, it in {**CLEAN, "HOME": folder, **wanted}.items()}
        try:
            read = {"capture_output": True, "text": True, "errors": "replace"}
            ran = subprocess.run(words, env=env, **given, **read)
        except (OSError, subprocess.TimeoutExpired) as error:
            return self.told(name, False, str(error), begun)
        said = ran.stdout + ran.stderr
        lacks = [it for it in ([shown] if isinstance(shown, str) else shown) if it not in said]
        end = f"it ended with {ran.returncode}" + (f", and lacks {lacks}" if lacks else "")
        text = f"$ {' '.join(words)}\n{said}\n{end}"
        return self.told(name, ran.returncode == status and not lacks, text, begun)

    def holds(self, name, is_well, text=""):
        return self.told(name, bool(is_well), text, time.monotonic())

    def leave_out(self, name, why):
        self.left += 1
        print(f"left out: {name}: {why}", flush=True)
