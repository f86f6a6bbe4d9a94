#!/usr/bin/env python3
# SPDX-License-Identifier: Apache-2.0
"""Fills a template in: each /*NAME*/ with a module, without its imports and exports, or with another file as base64.

    inline.py TEMPLATE OUT NAME=FILE ..
"""
import base64
import pathlib
import re
import sys


def inlined(file):
    """Returns what stands for a file. A module stands with the modules that it imports from in one scope."""
    if file.suffix != ".mjs":
        return base64.b64encode(file.read_bytes()).decode()
    text = re.sub(r"(?m)^(?:import|export) \{[^}]*\}.*\n", "", file.read_text())
    text = re.sub(r"(?m)^export (?=(?:const|class|function|async function) )", "", text)
    if re.search(r"(?m)^(?:import|export)\b|\bimport\.meta\b|</script", text):
        raise ValueError("%s has what can't stand in another script: an import, an export or </script" % file.name)
    return text


def filled(template, files):
    """Returns the text of a template with these files, by their names."""
    text = template.read_text()
    for name, file in files.items():
        if text.count("/*%s*/" % name) != 1:
            raise ValueError("%s has to have /*%s*/ once" % (template.name, name))
        text = text.replace("/*%s*/" % name, inlined(file))
    return text


if __name__ == "__main__":
    pathlib.Path(sys.argv[2]).write_text(filled(pathlib.Path(sys.argv[1]), {name: pathlib.Path(file) for name, file in (it.split("=") for it in sys.argv[3:])}))
