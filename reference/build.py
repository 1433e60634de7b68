"""Where the reference is, built for release, and how a program is run."""

import os
import subprocess

HERE = os.path.dirname(os.path.abspath(__file__))
REFERENCE = os.path.join(HERE, "target", "release", "reference")


def build():
    """Builds the reference if it is not up to date."""
    manifest = os.path.join(HERE, "Cargo.toml")
    command = ["cargo", "build", "--release", "--offline", "--quiet",
               "--manifest-path", manifest, "--target-dir", os.path.join(HERE, "target")]
    subprocess.run(command, check=True)
    return REFERENCE


def listing(program, trace):
    """What a program prints for a trace, with a last line if it failed."""
    done = subprocess.run([program], input=trace, stdout=subprocess.PIPE, stderr=subprocess.PIPE)
    text = done.stdout.decode("latin-1")
    if done.returncode != 0:
        text += f"ended with status {done.returncode}\n"
    return text
