#!/usr/bin/env python3
"""The service, in which each `await` of its modules is a place at which an exception can be raised: before what it
waits for begins, or behind it.

Whoever connects to the socket INJECTING writes lines: `places` is answered with all places, `reached` with those that
were reached since the last `arm`, and `arm PLACE` has the exception raised there once. INJECTING_FIRST is armed at the
start.
"""

import ast
import builtins
import importlib.machinery
import json
import os
import socket
import sys
import threading
from pathlib import Path

PACKAGE = Path(__file__).resolve().parents[3] / "python"
SERVICE = "tukyamid.service"
sys.path.insert(0, str(PACKAGE))


class Planted(Exception):
    """What is raised: nobody expects it."""


class Places:
    def __init__(self):
        self.names = []
        self.reached = set()
        self.armed = os.environ.get("INJECTING_FIRST")

    def __call__(self, name, value=None):
        """Stands before or behind what is waited for."""
        self.reached.add(name)
        if name == self.armed:
            self.armed = None
            raise Planted(name)
        return value


class Planting(ast.NodeTransformer):
    """Wraps what is waited for in calls of the places."""

    def __init__(self, module):
        self._module = module
        self._within = ["-"]

    def _name(self, node, side):
        name = f"{self._module}:{node.lineno}:{self._within[-1]}:{side}"
        if name not in places.names:
            places.names.append(name)
        return name

    def _call(self, node, side, *values):
        return ast.Call(ast.Name("injected", ast.Load()), [ast.Constant(self._name(node, side)), *values], [])

    def _before(self, node, value):
        return ast.BoolOp(ast.Or(), [self._call(node, "before"), value])

    def visit_AsyncFunctionDef(self, node):
        self._within.append(node.name)
        self.generic_visit(node)
        self._within.pop()
        return node

    def visit_Await(self, node):
        self.generic_visit(node)
        return self._call(node, "behind", ast.Await(self._before(node, node.value)))

    def visit_AsyncFor(self, node):
        self.generic_visit(node)
        node.iter = self._before(node, node.iter)
        return node

    def visit_AsyncWith(self, node):
        self.generic_visit(node)
        for item in node.items:
            item.context_expr = self._before(node, item.context_expr)
        return node


class Loader(importlib.machinery.SourceFileLoader):
    def get_code(self, fullname):
        path = self.get_filename(fullname)
        tree = Planting(fullname.removeprefix(SERVICE).strip(".")).visit(ast.parse(self.get_data(path), path))
        return compile(ast.fix_missing_locations(tree), path, "exec", dont_inherit=True)


class Finder:
    """Finds the service's modules, but not those of PostgreSQL."""

    @staticmethod
    def find_spec(name, path=None, target=None):
        if not name.startswith(SERVICE) or "postgres" in name or "shared" in name:
            return None
        spec = importlib.machinery.PathFinder.find_spec(name, path)
        if spec is not None and spec.origin and spec.origin.endswith(".py"):
            spec.loader = Loader(spec.loader.name, spec.loader.path)
        return spec


def control(path):
    listening = socket.socket(socket.AF_UNIX)
    listening.bind(path)
    listening.listen()
    while True:
        with listening.accept()[0] as connection, connection.makefile("rw") as file:
            for line in file:
                word, _, name = line.strip().partition(" ")
                if word == "arm":
                    places.reached, places.armed = set(), name or None
                answer = {"places": places.names, "reached": sorted(places.reached), "arm": places.armed}
                file.write(json.dumps(answer[word]) + "\n")
                file.flush()


places = builtins.injected = Places()
sys.meta_path.insert(0, Finder)

from tukyamid.service.server_command import main  # noqa: E402

if "INJECTING" in os.environ:
    threading.Thread(target=control, args=(os.environ["INJECTING"],), daemon=True).start()
sys.exit(main())
