"""A program of the project, run as ./run runs it, and how a script ends that has run many inputs."""
import subprocess
import sys


def program(name):
    """Builds it where it must be, and gives what runs it: bytes of its input to the text that it prints."""
    subprocess.run(["bash", "-c", f". ./run && build {name}"], capture_output=True, check=True)
    return lambda data: subprocess.run([f"target/bin/{name}"], input=data, capture_output=True, check=True).stdout.decode()


def tell(what, passed, wrong):
    """The last line, and status 1 where something was wrong."""
    for one in wrong:
        print(one)
    print(f"{passed} {what}, {len(wrong)} failed")
    sys.exit(len(wrong) > 0)
