"""Session files, each with what the program must print.

NAME.bin is a file for the program `cabinet`, and NAME.txt is what it must print, byte for byte, by the rules
in docs/ and not by the program itself. Run it where the program is built:

    python3 tests/sessions/check.py [PROGRAM]
"""
import pathlib
import subprocess
import sys
import tempfile

HERE = pathlib.Path(__file__).resolve().parent
ROOT = HERE.parents[1]

# arguments for which the program must end with a message and status 1
REFUSED = [[], ["no/such/file"], [str(HERE)]]


def printed(program, arguments):
    return subprocess.run([program, *arguments], capture_output=True, timeout=60)


def main():
    program = sys.argv[1] if len(sys.argv) > 1 else str(ROOT / "crates/cabinet/out/cabinet")
    files = sorted(HERE.glob("*.bin"))
    failed = 0
    for file in files:
        run = printed(program, [str(file)])
        if run.returncode != 0 or run.stdout != file.with_suffix(".txt").read_bytes():
            print(f"session {file.stem}: NOT AS IT MUST BE, status {run.returncode}")
            print(run.stdout.decode(errors="replace")[-2000:])
            failed += 1
    with tempfile.TemporaryDirectory() as folder:
        long = pathlib.Path(folder, "long")
        worked = (HERE / "worked_session.bin").read_bytes()
        long.write_bytes(worked + b"\xF3\xFF\xFF" + bytes(70000))
        run = printed(program, [str(long)])
        cut = (HERE / "worked_session.txt").read_bytes() + f"10 ? no 1 {len(worked)}\n".encode()
        if run.returncode != 0 or run.stdout != cut:
            print("session with a last command that ends past byte 65,535: NOT AS IT MUST BE")
            failed += 1
    for arguments in REFUSED:
        run = printed(program, arguments)
        if run.returncode != 1 or run.stdout or not run.stderr.startswith(b"cabinet: "):
            print(f"called with {arguments}: NOT AS IT MUST BE, status {run.returncode}: {run.stderr!r}")
            failed += 1
    print(f"sessions: {len(files) + 1 + len(REFUSED) - failed} as they must be, {failed} not")
    return 1 if failed else 0


if __name__ == "__main__":
    sys.exit(main())
