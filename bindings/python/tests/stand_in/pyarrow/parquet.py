# SPDX-License-Identifier: Apache-2.0
"""Files of tables, which only this stand-in reads."""
import pickle

from . import Column


def write_table(table, path):
    with open(path, "wb") as file:
        pickle.dump({name: column.values for name, column in table.items()}, file)


def read_table(path, columns):
    with open(path, "rb") as file:
        return {name: Column(values) for name, values in pickle.load(file).items() if name in columns}
