"""A scenario, or the settings of a running router, as the tools need it: whose an address is, and runs up to a moment.

A run that ends earlier has the same events up to its end, but for each router's last tick; so the text of a run up to a moment tells
what the routers hold at that moment of the longer run."""
import os
import subprocess
import sys

import mesh_text
import toml_lines


class Scenario:
    def __init__(self, tool, path):
        """Reads a file; ends the tool with status 1 where that can't be done."""
        self.tool, self.path = tool, path
        try:
            with open(path, "rb") as file:
                octets = file.read()
            self.top = toml_lines.read(octets)
        except OSError as fault:
            sys.exit(f"{tool}: {path}: {fault.strerror}")
        except toml_lines.Fault as fault:
            sys.exit(f"{tool}: {path}:{fault.line}: {fault.why}")
        self.text = octets.decode().removeprefix("\ufeff")
        self.settings = self.top.plain()
        routers = self.settings.get("router", [])
        self.routers = routers if isinstance(routers, list) else [routers]
        try:
            faces = [(router["name"], face["name"], face["addresses"]) for router in self.routers for face in router["interface"]]
            self.owners = {address: (name, on) for name, on, addresses in faces for address in addresses}
            self.senders = {(name, on): addresses[0] for name, on, addresses in faces}
        except (KeyError, IndexError, TypeError):
            sys.exit(f"{tool}: {path}: no settings that mesh takes; tools/why.py tells the line")

    def end_ms(self):
        end = self.settings.get("end_ms")
        return end if type(end) is int and end > 0 else sys.exit(f"{self.tool}: {self.path}: no `end_ms` that mesh takes")

    def with_key(self, key, value):
        """The text with another value at a key of the top table."""
        place = self.top.value.get(key)
        return self.text[:place.begin] + str(value) + self.text[place.end:] if place else f"{key} = {value}\n{self.text}"

    def until(self, mesh, end_ms, *words):
        """What `mesh emulate` prints of a run up to an end, read back; ends the tool with status 1 where it prints nothing."""
        try:
            done = subprocess.run([os.path.abspath(mesh), "emulate", *words], input=self.with_key("end_ms", end_ms).encode(),
                                  capture_output=True, check=False)
            return mesh_text.read(done.stdout.decode().splitlines()) if done.returncode == 0 else sys.exit(
                f"{self.tool}: {done.stderr.decode().strip()} (status {done.returncode}); tools/why.py tells the line")
        except OSError as fault:
            return sys.exit(f"{self.tool}: {mesh}: {fault.strerror}")
        except mesh_text.Unread as fault:
            return sys.exit(f"{self.tool}: {fault}")
