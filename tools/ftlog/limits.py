"""The limits of a script, as crates/ft_base/src/limits.rt has them."""
import pathlib
import re
from typing import NamedTuple

FILE = pathlib.Path(__file__).resolve().parents[2] / "crates" / "ft_base" / "src" / "limits.rt"
LIMITS = {name: int(number.replace("_", "")) for name, number in re.findall(r"^pub const (\w+): u\d+ = ([\d_]+);$", FILE.read_text(), re.M)}


class Version(NamedTuple):
    """A version of the language, and the limits that differ by version; `levels` callbacks of a task can be open in one context."""

    number: int
    funcs: int
    users: int
    tramps: int
    levels: int


BY_VERSION = ["FUNCS", "USERS", "TRAMPS", "GUARD_LEVELS"]
VERSION_1 = Version(1, *(LIMITS[f"{name}_IN_VERSION_1"] for name in BY_VERSION))
VERSION_2 = Version(2, *(LIMITS[name] for name in BY_VERSION))
VERSION_3 = VERSION_2._replace(number=3)
VERSIONS = [VERSION_1, VERSION_2, VERSION_3]


def call_bound(users, acting, version):
    """The most items that a call can make, in a script of this version with so many users, so many of which call functions."""
    bound = 4 + users
    for _ in range(2 * version.levels):
        bound = 4 + 5 * users + acting * bound
    return bound


def version_of(words):
    """The version that a script says whose first line has these words; version 1 if it says none."""
    return next((version for version in VERSIONS if words == ["ftrace", str(version.number)]), VERSION_1)
