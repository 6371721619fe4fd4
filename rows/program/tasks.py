"""The scripts of examples/ethereum/tasks, each over the schema that its page names."""
import os

from program import upgrades
from program.runs import example
from program.scripts import run_of

STATES, BLOCKS = "minimal-electra.json", "electra.json"
TASKS = {
    "light_client": STATES, "balance": STATES, "signing": STATES, "payload": BLOCKS, "blob": BLOCKS, "deposit": BLOCKS,
    "old_block": STATES, "epoch": STATES, "diff": STATES,
}


def schema_of(name):
    """The file of examples/ethereum of which data/ holds a copy of this name."""
    return name.replace("minimal-", "minimal" + os.sep)


def runs():
    for task, name in TASKS.items():
        script = example(os.path.join("tasks", task + ".script"))
        yield run_of("sha", script, (), name, example(schema_of(name)))
    yield from upgrades.runs()
