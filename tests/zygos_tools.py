"""The package of the tools, for the programs of this folder: its modules are in tools/zygos_tools."""
import os

__path__ = [os.path.join(os.path.dirname(os.path.dirname(os.path.realpath(__file__))), "tools", "zygos_tools")]
from zygos_tools.starting import start

start()
